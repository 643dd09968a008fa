// trees.go N [THREADS]: the lines of nmgc_trees. Mutator 0 has the first and the second tree; small trees are shared out.
package main

import (
	"fmt"
	"os"
	"runtime"
	"strconv"
	"sync"
	"time"
)

type node struct{ left, right *node }

func build(depth int) *node {
	if depth == 0 {
		return &node{}
	}
	return &node{build(depth - 1), build(depth - 1)}
}

func (n *node) count() uint64 {
	if n.left == nil {
		return 1
	}
	return 1 + n.left.count() + n.right.count()
}

func main() {
	n, _ := strconv.Atoi(os.Args[1])
	threads := 1
	if len(os.Args) > 2 {
		threads, _ = strconv.Atoi(os.Args[2])
	}
	runtime.GOMAXPROCS(threads)
	began := time.Now()
	var first, kept uint64
	small := make([][]uint64, threads)
	var wait sync.WaitGroup
	for m := 0; m < threads; m++ {
		small[m] = make([]uint64, n+1)
		wait.Add(1)
		go func(m int) {
			defer wait.Done()
			var long *node
			if m == 0 {
				first = build(n + 1).count()
				long = build(n)
			}
			for d := 4; d <= n; d += 2 {
				all := 1 << (n - d + 4)
				share := all / threads
				if m < all%threads {
					share++
				}
				for i := 0; i < share; i++ {
					small[m][d] += build(d).count()
				}
			}
			if m == 0 {
				kept = long.count()
			}
		}(m)
	}
	wait.Wait()
	fmt.Printf("stretch tree of depth %d\t check: %d\n", n+1, first)
	for d := 4; d <= n; d += 2 {
		var sum uint64
		for m := range small {
			sum += small[m][d]
		}
		fmt.Printf("%d\t trees of depth %d\t check: %d\n", 1<<(n-d+4), d, sum)
	}
	fmt.Printf("long lived tree of depth %d\t check: %d\n", n, kept)
	fmt.Fprintf(os.Stderr, "longest stop %.3f ms, %d ms\n", longestStop(), time.Since(began).Milliseconds())
}
