package main

import "unsafe"

// A reference to an object of the driver, or nil.
type reference = unsafe.Pointer

// An object is a head word and fields. The head has the tracer's mark, the kind, the number of fields, and the name:
// the number of the mutator that made it and a serial.
type pair struct {
	head   uint64
	fields [2]reference
}
type variable struct {
	head   uint64
	fields [1]reference
}
type array8 struct {
	head   uint64
	fields [8]reference
}
type array24 struct {
	head   uint64
	fields [24]reference
}

// Four fields that are copied by one assignment.
type four struct{ a, b, c, d reference }

const (
	kindPair = iota
	kindVariable
	kindArray
)

const maxSerial = 1 << 27

func headOf(kind, count, mutator, serial int) uint64 {
	return 0x6E6D<<48 | uint64(kind)<<44 | uint64(count)<<32 | uint64(mutator)<<27 | uint64(serial)
}

func head(object reference) uint64 {
	if object == nil {
		return 0
	}
	return *(*uint64)(object)
}

func isPair(object reference) bool { return head(object)>>44&15 == kindPair }

// The fields of an object, as they lie in it.
func fieldsOf(object reference) []reference {
	count := int(head(object) >> 32 & 4095)
	return unsafe.Slice((*reference)(unsafe.Add(object, 8)), count)
}
