package main

import (
	"math/rand"
	"runtime"
	"sync/atomic"
)

// Registers 0 to 59 are drawn. Register 60 is the place into which a channel sends. Registers 61 to 63 are for the
// converter's lines alone.
const drawn = 60

// The operand that stands for g, the array of globals.
const shared = 255

var g [16]reference

// A mutator is a goroutine that gives random commands. Its registers aren't here, but on its stack.
type mutator struct {
	number  int
	serial  int
	random  *rand.Rand
	pause   int
	mailbox chan reference
}

// Gives commands until the driver stops. The registers are an array of this function: the compiler gives its stores no
// barrier. Every store into an object or into g has one.
func (m *mutator) run() {
	var registers [64]reference
	runtime.NmgcLog(runtime.NmgcBegin, uint64(m.number), runtime.NmgcGoroutine(), 0)
	ready.Done()
	for m.hasLeave() {
		kind, to := m.random.Intn(100), m.random.Intn(drawn)
		switch {
		case kind < 10 && mayWait():
			received := <-m.mailbox
			runtime.NmgcLock()
			registers[to] = received
			m.log(opReceive, head(received), to)
			atomic.AddInt32(&waiting, -1)
		case kind < 30:
			runtime.NmgcLock()
			if m.send(registers[to], to) {
				registers[to] = nil
			}
		default:
			runtime.NmgcLock()
			with := m.draw(&registers)
			if result, isStored := m.command(with, &registers); isStored {
				registers[with.to] = result
			}
		}
		runtime.NmgcUnlock()
	}
	runtime.KeepAlive(&registers)
	done.Done()
}

// Waits for a command's leave, and then for a while, and lets another mutator run. Returns false once the driver stops.
func (m *mutator) hasLeave() bool {
	for atomic.AddInt64(&leave, -1) < 0 {
		atomic.AddInt64(&leave, 1)
		if atomic.LoadUint32(&stopped) != 0 {
			return false
		}
		runtime.Gosched()
	}
	spun := 0
	for i := 0; i < m.pause; i++ {
		spun += i
	}
	runtime.Gosched()
	return spun >= 0 && atomic.LoadUint32(&stopped) == 0
}

// Returns whether one more mutator may wait for a message. Half of them go on.
func mayWait() bool {
	if int(atomic.AddInt32(&waiting, 1)) <= len(all)/2 {
		return true
	}
	atomic.AddInt32(&waiting, -1)
	return false
}

// Sends a value straight into the stack of a mutator that waits. Returns whether there was one.
func (m *mutator) send(value reference, register int) bool {
	if value == nil {
		return false
	}
	for _, to := range all {
		select {
		case to.mailbox <- value:
			m.log(opSend, head(value), to.number, register)
			return true
		default:
		}
	}
	return false
}
