// The tracer's log, a file that hooks.py adds to a copy of Go's runtime. It is written by the runtime's hooks and by the
// driver, into memory that the driver mapped from a file, so it outlives a crash.
// A record counts once its kind isn't 0. Records lie in the order in which they took their places.

package runtime

import (
	"runtime/internal/atomic"
	"unsafe"
)

// The kinds of records, which convert.py reads too.
const (
	NmgcCommand = iota + 1 // a command: packed operands, mutator, name
	nmgcMark               // a cycle begins, the world is stopped
	nmgcScan               // a stack is read: its goroutine
	nmgcFound              // the scan of a stack found an object: name
	nmgcOld                // the deletion half remembered an object: name
	nmgcNew                // the insertion half remembered an object: name
	nmgcClose              // marking has ended, the world is stopped
	nmgcBlack              // an object is marked at the close: name
	nmgcFreed              // the sweep frees an object: name
	NmgcBegin              // a mutator begins: mutator, goroutine
	NmgcEnd                // a mutator ends: mutator
)

// The faults that can be planted, as the driver's words name them.
const (
	_               = iota
	nmgcNoDeletion  // the deletion half is dropped
	nmgcNoInsertion // the insertion half is dropped
	nmgcNoBulk      // copies and clearing of many fields have no barrier
	nmgcNoAtomic    // compare-and-swap and exchange have no barrier
	nmgcNewUnmarked // new objects of 208 bytes aren't marked
	nmgcBuffersLost // barrier buffers are thrown away as marking ends
	nmgcNoChannel   // a send into another stack has no barrier
	nmgcLoggedLate  // no fault: what is remembered is logged behind the runtime's test whether it is marked
)

// The head word of a driver's object has these 16 bits on top. Its lower 32 bits are its name.
const nmgcMagic = 0x6E6D

var (
	nmgcBase     uintptr
	nmgcCapacity uint64
	nmgcNext     uint64
	nmgcLocked   uint32

	NmgcFault uint32
)

// NmgcOpen begins the log in memory of so many records of 32 bytes, which are 0.
func NmgcOpen(base unsafe.Pointer, capacity uint64) { nmgcBase, nmgcCapacity = uintptr(base), capacity }

// NmgcGoroutine returns the number of the goroutine that calls it.
func NmgcGoroutine() uint64 { return uint64(getg().goid) }

// NmgcIsFull returns whether a further record may have no place.
func NmgcIsFull() bool { return atomic.Load64(&nmgcNext)+1024 > nmgcCapacity }

// NmgcLog appends a record. Without a log, or behind its end, it does nothing.
//
//go:nosplit
//go:nowritebarrierrec
func NmgcLog(kind, a, b, c uint64) {
	if nmgcBase == 0 {
		return
	}
	place := atomic.Xadd64(&nmgcNext, 1) - 1
	if place >= nmgcCapacity {
		return
	}
	record := (*[4]uint64)(unsafe.Pointer(nmgcBase + uintptr(place)*32))
	record[1], record[2], record[3] = a, b, c
	atomic.Store64(&record[0], kind)
}

// NmgcLock takes the lock under which a command is done and logged. Whoever holds it isn't preempted. So the world isn't
// stopped, and no stack is read, between a command and its record.
//
//go:nosplit
func NmgcLock() {
	acquirem()
	for !atomic.Cas(&nmgcLocked, 0, 1) {
		procyield(20)
	}
}

// NmgcUnlock gives the lock back.
//
//go:nosplit
func NmgcUnlock() {
	atomic.Store(&nmgcLocked, 0)
	releasem(getg().m)
}

// Logs the object at this address, if it is one of the driver's.
//
//go:nosplit
//go:nowritebarrierrec
func nmgcName(kind uint64, object uintptr) {
	if nmgcBase == 0 {
		return
	}
	if head := *(*uint64)(unsafe.Pointer(object)); head>>48 == nmgcMagic {
		NmgcLog(kind, head&0xFFFFFFFF, 0, 0)
	}
}

// Logs the contents of a barrier buffer before the runtime tests what is marked: pairs of an old value and a new one.
// A planted fault drops one half of them.
//
//go:nowritebarrierrec
func nmgcFlush(values []uintptr) {
	if nmgcBase == 0 {
		return
	}
	for i, value := range values {
		if NmgcFault == nmgcNoDeletion && i&1 == 0 || NmgcFault == nmgcNoInsertion && i&1 == 1 {
			values[i] = 0
			continue
		}
		if value < minLegalPointer || NmgcFault == nmgcLoggedLate {
			continue
		}
		if object, _, _ := findObject(value, 0, 0); object != 0 {
			nmgcName(nmgcOld+uint64(i&1), object)
		}
	}
}

// Logs an object that the barrier had remembered, behind the runtime's test.
//
//go:nowritebarrierrec
func nmgcGreyed(object uintptr) {
	if NmgcFault == nmgcLoggedLate {
		nmgcName(nmgcOld, object)
	}
}

// Logs the close, and each of the driver's objects that is marked. The world is stopped.
func nmgcMarked() {
	NmgcLog(nmgcClose, 0, 0, 0)
	for _, s := range mheap_.allspans {
		if nmgcBase == 0 || s.state.get() != mSpanInUse || s.spanclass.noscan() {
			continue
		}
		for i := uintptr(0); i < s.nelems; i++ {
			if s.markBitsForIndex(i).isMarked() {
				nmgcName(nmgcBlack, s.base()+i*s.elemsize)
			}
		}
	}
}

// Logs what the sweep of a span is about to free.
func nmgcSweep(s *mspan) {
	if nmgcBase == 0 || s.spanclass.noscan() {
		return
	}
	for i := uintptr(0); i < s.nelems; i++ {
		isUsed := i < s.freeindex || s.allocBitsForIndex(i).isMarked()
		if isUsed && !s.markBitsForIndex(i).isMarked() {
			nmgcName(nmgcFreed, s.base()+i*s.elemsize)
		}
	}
}
