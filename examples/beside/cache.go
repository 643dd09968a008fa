// cache.go N [THREADS [SEED]]: the load of nmgc_cache, with the same operations of the same seed. Go 1.24 (weak, AddCleanup).
package main

import (
	"fmt"
	"os"
	"runtime"
	"strconv"
	"sync"
	"sync/atomic"
	"time"
	"weak"
)

const (
	keys    = 32000
	shards  = 8
	entries = 2000
	step    = 0x9E3779B97F4A7C15
)

type value struct{ key, version uint32 }
type held = weak.Pointer[value]

var index [keys]atomic.Pointer[held]
var rings [shards][entries]atomic.Pointer[value]
var counts [shards]atomic.Uint64
var evictions atomic.Uint64

type random struct{ state uint64 }

func (r *random) number() uint64 {
	r.state += step
	n := r.state
	n = (n ^ (n >> 30)) * 0xBF58476D1CE4E5B9
	n = (n ^ (n >> 27)) * 0x94D049BB133111EB
	return n ^ (n >> 31)
}

func (r *random) below(bound uint32) uint32 {
	n := r.number()
	if bound == 0 {
		return 0
	}
	return uint32(n % uint64(bound))
}

type mutator struct {
	me, threads, wrong, hits, missed, retries uint64
	known                                     []uint32
}

func (m *mutator) owns(key uint32) bool { return uint64(key)%m.threads == m.me }

func (m *mutator) put(key, version uint32) {
	v := &value{key, version}
	runtime.AddCleanup(v, func(int) { evictions.Add(1) }, 0)
	w := weak.Make(v)
	turn := counts[key%shards].Add(1) - 1
	rings[key%shards][turn%entries].Store(v)
	for {
		old := index[key].Load()
		if index[key].CompareAndSwap(old, &w) {
			return
		}
		m.retries++
	}
}

func (m *mutator) read(key uint32, refill bool) {
	w := index[key].Load()
	if w != nil {
		if v := w.Value(); v != nil {
			m.hits++
			right := v.version >= m.known[key]
			if m.owns(key) {
				right = v.version == m.known[key]
			}
			if !right || v.key != key {
				m.wrong++
			}
			m.known[key] = v.version
			return
		}
	}
	m.missed++
	if !refill {
		return
	}
	if m.owns(key) && m.known[key] > 0 {
		m.put(key, m.known[key])
	} else if w != nil {
		index[key].CompareAndSwap(w, nil)
	}
}

func (m *mutator) run(operations uint64, seed uint64) {
	lanes := random{m.me * step}
	r := random{seed + lanes.number()}
	for ; operations > 0; operations-- {
		kind := r.below(100)
		bound := r.below(keys)
		key := r.below(bound + 1)
		switch {
		case kind < 9:
			own := uint64(key)/m.threads*m.threads + m.me
			if own >= keys {
				own -= m.threads
			}
			m.known[own]++
			m.put(uint32(own), m.known[own])
		case kind < 10:
			for i := uint32(0); i < 8; i++ {
				m.read((key+i)%keys, i == 7)
			}
		default:
			m.read(key, true)
		}
	}
}

func word(i int, otherwise uint64) uint64 {
	if len(os.Args) <= i {
		return otherwise
	}
	n, _ := strconv.ParseUint(os.Args[i], 10, 64)
	return n
}

func main() {
	operations, threads, seed := word(1, 0), word(2, 1), word(3, 1)
	runtime.GOMAXPROCS(int(threads))
	began := time.Now()
	all := make([]mutator, threads)
	var wait sync.WaitGroup
	for i := range all {
		all[i] = mutator{me: uint64(i), threads: threads, known: make([]uint32, keys)}
		share := operations / threads
		if uint64(i) < operations%threads {
			share++
		}
		wait.Add(1)
		go func(m *mutator) { defer wait.Done(); m.run(share, seed) }(&all[i])
	}
	wait.Wait()
	var sum mutator
	for _, m := range all {
		sum.wrong += m.wrong
		sum.hits += m.hits
		sum.missed += m.missed
		sum.retries += m.retries
	}
	fmt.Printf("operations %d\nwrong %d\n", operations, sum.wrong)
	fmt.Fprintf(os.Stderr, "%d hits, %d missed, %d retries, %d evictions, longest stop %.3f ms, %d ms\n", sum.hits, sum.missed, sum.retries,
		evictions.Load(), longestStop(), time.Since(began).Milliseconds())
}
