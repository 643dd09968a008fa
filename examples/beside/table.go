// table.go N [THREADS]: N operations on a table of 64,000 fields that all threads share: half put a new entry into a field.
package main

import (
	"fmt"
	"os"
	"runtime"
	"sync"
	"sync/atomic"
)

const (
	keys = 64000
	step = 0x9E3779B97F4A7C15
)

type entry struct{ key, again uint64 }

var table [keys]atomic.Pointer[entry]

type random struct{ state uint64 }

func (r *random) number() uint64 {
	r.state += step
	n := r.state
	n = (n ^ (n >> 30)) * 0xBF58476D1CE4E5B9
	n = (n ^ (n >> 27)) * 0x94D049BB133111EB
	return n ^ (n >> 31)
}

func run(lane uint64, operations int) (wrong uint64) {
	lanes := random{lane * step}
	r := random{1 + lanes.number()}
	for ; operations > 0; operations-- {
		kind := r.number() % 2
		key := r.number() % keys
		if kind == 0 {
			table[key].Store(&entry{key, key})
		} else if e := table[key].Load(); e != nil && e.key != key {
			wrong++
		}
	}
	return wrong
}

func main() {
	operations, threads := argument(1, 0), argument(2, 1)
	runtime.GOMAXPROCS(threads)
	wrongs := make([]uint64, threads)
	var wait sync.WaitGroup
	for t := range wrongs {
		share := operations / threads
		if t < operations%threads {
			share++
		}
		wait.Add(1)
		go func(t, share int) { defer wait.Done(); wrongs[t] = run(uint64(t), share) }(t, share)
	}
	wait.Wait()
	var wrong uint64
	for _, w := range wrongs {
		wrong += w
	}
	fmt.Printf("operations %d\nwrong %d\n", operations, wrong)
	fmt.Fprintf(os.Stderr, "longest stop %.3f ms\n", longestStop())
}
