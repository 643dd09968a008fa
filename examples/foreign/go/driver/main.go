// Drives Go's runtime by random commands while its collector marks: driver LOG SEED MUTATORS CYCLES COMMANDS PAUSE FAULT.
// COMMANDS are given in each cycle; PAUSE is how long a mutator spins before each.
package main

import (
	"math/rand"
	"os"
	"runtime"
	"runtime/debug"
	"strconv"
	"sync"
	"sync/atomic"
	"syscall"
	"time"
	"unsafe"
)

const records = 1 << 22

var (
	all     []*mutator
	stopped uint32
	leave   int64 // how many commands may be given
	waiting int32 // how many mutators wait for a message
	ready   sync.WaitGroup
	done    sync.WaitGroup
	ballast *node
	sink    int
)

// The faults by name; their numbers are those of the runtime's file.
var faults = []string{"none", "no_deletion", "no_insertion", "no_bulk", "no_atomic", "new_unmarked", "buffers_lost",
	"no_channel", "logged_late"}

// A list that is long enough that marking takes a while.
type node struct {
	next *node
	rest [7]uint64
}

// Stands in a deep stack until the program ends.
//
//go:noinline
func stand(depth int, at *node, deep *sync.WaitGroup) int {
	if depth == 0 {
		deep.Done()
		select {}
	}
	below := stand(depth-1, at.next, deep)
	if at == nil {
		return below + 1
	}
	return below
}

func makeBallast() {
	ballast = &node{}
	ballast.next = ballast
	for i := 0; i < 100000; i++ {
		ballast.next = &node{next: ballast.next}
	}
}

// Makes goroutines with deep stacks, whose reading takes a while.
func makeStacks() {
	var deep sync.WaitGroup
	for i := 0; i < 30; i++ {
		deep.Add(1)
		go func() { sink = stand(5000, ballast, &deep) }()
	}
	deep.Wait()
}

func openLog(path string) {
	file, err := os.Create(path)
	if err == nil {
		err = file.Truncate(records * 32)
	}
	if err != nil {
		panic(err)
	}
	memory, err := syscall.Mmap(int(file.Fd()), 0, records*32, syscall.PROT_READ|syscall.PROT_WRITE, syscall.MAP_SHARED)
	if err != nil {
		panic(err)
	}
	runtime.NmgcOpen(unsafe.Pointer(&memory[0]), records)
}

// Begins the mutators. Deep stacks lie between theirs, so that they aren't read at once.
func begin(count, seed, pause int) {
	for number := 0; number < count; number++ {
		random := rand.New(rand.NewSource(int64(seed*100 + number)))
		all = append(all, &mutator{number: number, random: random, pause: pause, mailbox: make(chan reference)})
	}
	done.Add(count)
	for _, m := range all {
		ready.Add(1)
		go m.run()
		ready.Wait()
		makeStacks()
	}
}

// Gives leave for some commands before the cycle and the rest in it, and has the cycle run to its end.
func cycle(commands int) {
	atomic.AddInt64(&leave, int64(commands/4))
	for atomic.LoadInt64(&leave) > 0 {
		time.Sleep(time.Millisecond)
	}
	atomic.AddInt64(&leave, int64(commands-commands/4))
	runtime.GC()
}

// Stops the mutators, also those that wait for a message.
func end() {
	atomic.StoreUint32(&stopped, 1)
	for _, m := range all {
		go func(m *mutator) {
			for {
				m.mailbox <- nil
			}
		}(m)
	}
	done.Wait()
}

func main() {
	var numbers [5]int
	for i := range numbers {
		numbers[i], _ = strconv.Atoi(os.Args[i+2])
	}
	seed, mutators, cycles, commands, pause := numbers[0], numbers[1], numbers[2], numbers[3], numbers[4]
	debug.SetGCPercent(-1)
	makeBallast()
	runtime.GC()
	openLog(os.Args[1])
	for number, fault := range faults {
		if fault == os.Args[7] {
			runtime.NmgcFault = uint32(number)
		}
	}
	begin(mutators, seed, pause)
	for i := 0; i < cycles && !runtime.NmgcIsFull(); i++ {
		cycle(commands)
	}
	end()
}
