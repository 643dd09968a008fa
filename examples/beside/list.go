// list.go N [THREADS]: keeps N lists of 1,024 cells, puts 2 N more in their places, and adds up what is left.
package main

import (
	"fmt"
	"os"
	"runtime"
	"sync"
)

const cells = 1024

type cell struct {
	number uint64
	rest   *cell
}

type result struct{ cells, sum uint64 }

func made(number uint64) *cell {
	var list *cell
	for i := 0; i < cells; i++ {
		list = &cell{number, list}
	}
	return list
}

func run(kept int) (r result) {
	lists := make([]*cell, kept)
	for i := 0; i < 3*kept; i++ {
		lists[i%kept] = made(uint64(i))
	}
	for _, list := range lists {
		for ; list != nil; list = list.rest {
			r.cells++
			r.sum += list.number
		}
	}
	return r
}

func main() {
	count, threads := argument(1, 0), argument(2, 1)
	runtime.GOMAXPROCS(threads)
	results := make([]result, threads)
	var wait sync.WaitGroup
	for t := range results {
		kept := count / threads
		if t < count%threads {
			kept++
		}
		wait.Add(1)
		go func(t, kept int) { defer wait.Done(); results[t] = run(kept) }(t, kept)
	}
	wait.Wait()
	var all result
	for _, r := range results {
		all.cells += r.cells
		all.sum += r.sum
	}
	fmt.Printf("cells %d\nsum %d\n", all.cells, all.sum)
	fmt.Fprintf(os.Stderr, "longest stop %.3f ms\n", longestStop())
}
