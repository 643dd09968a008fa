// The tracer of fields, a file that hooks.py adds to a copy of Go's runtime for programs as they are. A program that is
// built with this copy writes a log of its own heap into the file that NMGC_LOG names: of the cycles from the first on,
// or from the one that NMGC_FROM names, as many as nmgcCycles. The file has 2^24 records of 32 bytes, all 0. NMGC_FAULT
// plants a fault.
// Names are addresses; stores outside of cycles aren't logged, but seen at the next mark, where the heap is written whole.

package runtime

import (
	"runtime/internal/atomic"
	"unsafe"
)

const (
	nmgcRecords = 1 << 24
	nmgcCycles  = 2
)

// The kinds of records. The goroutine that acts is above the lowest byte of the kind; 0 is the runtime itself.
const (
	nmgcMade   = iota + 1 // object, words that may have pointers
	nmgcField             // at a mark: object, index, target
	nmgcUnseen            // at a mark: object, index of a field that the runtime writes without barriers
	nmgcStands            // at a mark: goroutine
	nmgcRoot              // at a mark: object
	nmgcMark              // a cycle begins, the world is stopped
	nmgcWrite             // object, index, target
	nmgcHand              // object, goroutine: sent into its stack
	nmgcBorn              // goroutine, its closure
	nmgcGone              // goroutine
	nmgcHeld              // a scan of a stack found an object: the scan, object
	nmgcScan              // the scan of a stack ends: the scan, goroutine
	nmgcPush              // the barrier or the runtime remembered an object: object
	nmgcClose             // marking has ended, the world is stopped
	nmgcBlack             // object
	nmgcFreed             // object
)

var (
	nmgcMemory  uintptr
	nmgcNext    uint64
	nmgcBegun   int
	nmgcInCycle bool
	nmgcPath    [256]byte
	nmgcFault   int // 1: the deletion half of the barrier is dropped, 2: the insertion half
)

// Appends a record. The goroutine is the one on whose behalf this runs.
//
//go:nosplit
//go:nowritebarrierrec
func nmgcRecord(kind uint64, a, b, c uintptr) {
	if nmgcMemory == 0 {
		return
	}
	if running := getg().m.curg; running != nil {
		kind |= uint64(running.goid) << 8
	}
	place := atomic.Xadd64(&nmgcNext, 1) - 1
	if place >= nmgcRecords {
		return
	}
	record := (*[4]uint64)(unsafe.Pointer(nmgcMemory + uintptr(place)*32))
	record[1], record[2], record[3] = uint64(a), uint64(b), uint64(c)
	atomic.Store64(&record[0], kind)
}

// Returns the begin of the object of the heap in which an address lies, or of the globals, or 0.
//
//go:nowritebarrierrec
func nmgcObject(address uintptr) uintptr {
	if s := spanOfHeap(address); s != nil {
		if i := s.objIndex(address); !s.isFree(i) {
			return s.base() + i*s.elemsize
		}
		return 0
	}
	if data := &firstmoduledata; data.data <= address && address < data.edata {
		return data.data
	} else if data.bss <= address && address < data.ebss {
		return data.bss
	}
	return 0
}

// Returns the object of the heap to which a pointer refers, or 0.
//
//go:nowritebarrierrec
func nmgcTarget(pointer uintptr) uintptr {
	if spanOfHeap(pointer) == nil {
		return 0
	}
	return nmgcObject(pointer)
}

// Logs a store into a field of the heap or of the globals, just before it or just after it. Some fields lie in objects
// without pointers: those that the runtime keeps alive otherwise.
//
//go:nowritebarrierrec
func nmgcStored(slot, value uintptr) {
	if s := spanOfHeap(slot); !nmgcInCycle || s != nil && s.spanclass.noscan() {
		return
	}
	if object := nmgcObject(slot); object != 0 {
		nmgcRecord(nmgcWrite, object, (slot-object)/8, nmgcTarget(value))
	}
}

// Logs a store by the compiler's barrier. Returns whether the barrier's buffer has room, so that it isn't flushed yet.
//
//go:nosplit
//go:nowritebarrierrec
func nmgcBarrier(slot *uintptr, value uintptr) bool {
	if slot == nil {
		return false
	}
	systemstack(func() { nmgcStored(uintptr(unsafe.Pointer(slot)), value) })
	buffer := &getg().m.p.ptr().wbBuf
	return buffer.next != buffer.end
}

// Logs an atomic store.
//
//go:nosplit
//go:nowritebarrierrec
func nmgcAtomic(slot *unsafe.Pointer, value unsafe.Pointer) {
	systemstack(func() { nmgcStored(uintptr(unsafe.Pointer(slot)), uintptr(value)) })
}

// Does a compare-and-swap, and logs it if it stored.
//
//go:nosplit
func nmgcCompareAndSwap(slot *unsafe.Pointer, old, value unsafe.Pointer) bool {
	mp := acquirem()
	atomicwb(slot, value)
	done := atomic.Casp1(slot, old, value)
	if done {
		nmgcAtomic(slot, value)
	}
	releasem(mp)
	return done
}

// Logs stores into many fields: a copy, or clearing if the source is 0.
//
//go:nosplit
//go:nowritebarrierrec
func nmgcBulk(to, from, size uintptr) {
	systemstack(func() {
		isHeap := spanOfHeap(to) != nil
		if !nmgcInCycle || nmgcObject(to) == 0 {
			return
		}
		bits := heapBits{}
		if isHeap {
			bits = heapBitsForAddr(to)
		}
		for i := uintptr(0); i < size; i += 8 {
			value := uintptr(0)
			if from != 0 {
				value = *(*uintptr)(unsafe.Pointer(from + i))
			}
			if !isHeap || bits.isPointer() {
				nmgcStored(to+i, value)
			}
			if isHeap {
				bits = bits.next()
			}
		}
	})
}

// Logs values that a channel moves from one goroutine to another. Where the place is no stack, they are stored too.
func nmgcSend(t *_type, to, from unsafe.Pointer, sender, receiver int64) {
	if !nmgcInCycle {
		return
	}
	for i := uintptr(0); i < t.ptrdata; i += 8 {
		if *addb(t.gcdata, i/64)>>(i/8&7)&1 == 0 {
			continue
		}
		value := *(*uintptr)(add(from, i))
		if target := nmgcTarget(value); target != 0 {
			nmgcRecord(nmgcHand, target, uintptr(sender), uintptr(receiver))
		}
		nmgcStored(uintptr(to)+i, value)
	}
}

// Logs a new object.
//
//go:nowritebarrierrec
func nmgcNew(s *mspan, object uintptr) {
	if nmgcInCycle {
		nmgcRecord(nmgcMade, object, nmgcWords(s), 0)
	}
}

func nmgcWords(s *mspan) uintptr {
	if s.spanclass.noscan() {
		return 0
	}
	return s.elemsize / 8
}

// Logs that a goroutine begins or ends in a cycle.
func nmgcGoroutine(kind uint64, goroutine int64, closure uintptr) {
	if nmgcInCycle {
		nmgcRecord(kind, uintptr(goroutine), nmgcTarget(closure), 0)
	}
}

// Logs that the runtime remembered an object.
//
//go:nowritebarrierrec
func nmgcRemembered(pointer uintptr) {
	if nmgcInCycle {
		if object := nmgcTarget(pointer); object != 0 {
			nmgcRecord(nmgcPush, object, 0, 0)
		}
	}
}

// Logs the contents of a barrier buffer before the runtime tests what is marked: pairs of an old value and a new one.
// A planted fault drops one half of them in the cycles that are logged.
//
//go:nowritebarrierrec
func nmgcFlush(values []uintptr) {
	for i, value := range values {
		if nmgcInCycle && nmgcFault == 1+i&1 {
			values[i] = 0
		} else {
			nmgcRemembered(value)
		}
	}
}

// Logs that the runtime marks what an object's fields refer to, but not the object.
func nmgcOpened(object uintptr) {
	if nmgcInCycle {
		nmgcPointers(object, spanOfHeap(object), func(index, target uintptr) { nmgcRecord(nmgcPush, target, 0, 0) })
	}
}

// Logs what the marker reads in the field of a goroutine that it can lose without a barrier: its saved closure.
//
//go:nowritebarrierrec
func nmgcRead(object, offset, target uintptr) {
	if !nmgcInCycle || offset != unsafe.Offsetof(g{}.sched)+unsafe.Offsetof(gobuf{}.ctxt) {
		return
	}
	all, count := atomicAllG()
	for i := uintptr(0); i < count; i++ {
		if uintptr(unsafe.Pointer(atomicAllGIndex(all, i))) == object {
			nmgcRemembered(target)
		}
	}
}

// Calls a function for each field of an object that refers to an object.
func nmgcPointers(object uintptr, s *mspan, each func(index, target uintptr)) {
	if s.spanclass.noscan() {
		return
	}
	bits := heapBitsForAddr(object)
	for i := uintptr(0); i < s.elemsize && bits.morePointers(); i += 8 {
		if bits.isPointer() {
			if target := nmgcTarget(*(*uintptr)(unsafe.Pointer(object + i))); target != 0 {
				each(i/8, target)
			}
		}
		bits = bits.next()
	}
}

// Opens the log, if the program's environment names one.
func nmgcOpen() {
	path := gogetenv("NMGC_LOG")
	if path == "" || len(path) >= len(nmgcPath) {
		return
	}
	copy(nmgcPath[:], path)
	file := open(&nmgcPath[0], 2, 0)
	if file < 0 {
		throw("NMGC_LOG can't be opened")
	}
	memory, failed := mmap(nil, nmgcRecords*32, _PROT_READ|_PROT_WRITE, 1, file, 0)
	if failed != 0 {
		throw("NMGC_LOG can't be mapped")
	}
	nmgcMemory = uintptr(memory)
	nmgcFault, _ = atoi(gogetenv("NMGC_FAULT"))
}

// Logs the whole heap and the roots as a cycle begins. The world is stopped.
func nmgcMarkBegins() {
	nmgcBegun++
	first, _ := atoi(gogetenv("NMGC_FROM"))
	if first == 0 {
		first = 1
	}
	if nmgcBegun == first {
		nmgcOpen()
	}
	if nmgcBegun >= first+nmgcCycles {
		nmgcMemory = 0
	}
	if nmgcMemory == 0 {
		return
	}
	nmgcHeap()
	data := &firstmoduledata
	nmgcGlobals(data.data, data.edata, data.gcdatamask.bytedata)
	nmgcGlobals(data.bss, data.ebss, data.gcbssmask.bytedata)
	nmgcRunning()
	for fb := allfin; fb != nil; fb = fb.alllink {
		for i := uint32(0); i < fb.cnt; i++ {
			nmgcRootAt(uintptr(unsafe.Pointer(fb.fin[i].fn)))
			nmgcRootAt(uintptr(fb.fin[i].arg))
		}
	}
	nmgcRecord(nmgcMark, 0, 0, 0)
	nmgcInCycle = true
}

func nmgcRootAt(pointer uintptr) {
	if target := nmgcTarget(pointer); target != 0 {
		nmgcRecord(nmgcRoot, target, 0, 0)
	}
}

func nmgcHeap() {
	for _, s := range mheap_.allspans {
		if s.state.get() != mSpanInUse {
			continue
		}
		for i := uintptr(0); i < s.nelems; i++ {
			if s.isFree(i) {
				continue
			}
			object := s.base() + i*s.elemsize
			nmgcRecord(nmgcMade, object, nmgcWords(s), 0)
			nmgcPointers(object, s, func(index, target uintptr) { nmgcRecord(nmgcField, object, index, target) })
		}
	}
}

func nmgcGlobals(begin, end uintptr, mask *uint8) {
	nmgcRecord(nmgcMade, begin, (end-begin+7)/8, 0)
	for i := uintptr(0); begin+i*8 < end; i++ {
		if *addb(mask, i/8)>>(i&7)&1 != 0 {
			if target := nmgcTarget(*(*uintptr)(unsafe.Pointer(begin + i*8))); target != 0 {
				nmgcRecord(nmgcField, begin, i, target)
			}
		}
	}
	nmgcRecord(nmgcRoot, begin, 0, 0)
}

// Logs the goroutines. Of goroutines and threads, the runtime writes three fields without a barrier.
func nmgcRunning() {
	for _, gp := range allgs {
		nmgcUnseenAt(uintptr(unsafe.Pointer(&gp.sched.ctxt)))
		nmgcUnseenAt(uintptr(unsafe.Pointer(&gp.m)))
		if readgstatus(gp)&^_Gscan != _Gdead {
			nmgcRecord(nmgcStands, uintptr(gp.goid), 0, 0)
		}
	}
	for mp := allm; mp != nil; mp = mp.alllink {
		nmgcUnseenAt(uintptr(unsafe.Pointer(&mp.curg)))
	}
}

func nmgcUnseenAt(slot uintptr) {
	if object := nmgcObject(slot); object != 0 {
		nmgcRecord(nmgcUnseen, object, (slot-object)/8, 0)
	}
}

// Logs the close, and each object that is marked. The world is stopped.
func nmgcMarked() {
	if !nmgcInCycle {
		return
	}
	nmgcInCycle = false
	nmgcRecord(nmgcClose, 0, 0, 0)
	for _, s := range mheap_.allspans {
		if s.state.get() != mSpanInUse {
			continue
		}
		for i := uintptr(0); i < s.nelems; i++ {
			if s.markBitsForIndex(i).isMarked() {
				nmgcRecord(nmgcBlack, s.base()+i*s.elemsize, 0, 0)
			}
		}
	}
}

// Logs what the sweep of a span frees.
func nmgcSweep(s *mspan) {
	if nmgcMemory == 0 || nmgcNext == 0 {
		return
	}
	for i := uintptr(0); i < s.nelems; i++ {
		isUsed := i < s.freeindex || s.allocBitsForIndex(i).isMarked()
		if isUsed && !s.markBitsForIndex(i).isMarked() {
			nmgcRecord(nmgcFreed, s.base()+i*s.elemsize, 0, 0)
		}
	}
}
