package main

import (
	"runtime"
	"sync/atomic"
	"unsafe"
)

// The commands, which convert.py reads too.
const (
	opNil = iota + 1
	opMov
	opPair
	opVariable
	opArray
	opGet
	opSet
	opCas
	opSwap
	opCopy
	opClear
	opSend
	opReceive
)

// The operands of a command: registers, the object's fields, the first of them, and how many.
type operands struct {
	to, object, value, other int
	fields                   []reference
	at, count                int
	isFixed                  bool
}

// Logs a command: its operands, a byte each, and its answer.
func (m *mutator) log(op int, answer uint64, operands ...int) {
	packed := uint64(op) | uint64(m.number)<<8
	for i, operand := range operands {
		packed |= uint64(operand) << (16 + 8*i)
	}
	runtime.NmgcLog(runtime.NmgcCommand, packed, answer&0xFFFFFFFF, answer>>48)
}

// Draws the operands. The object is g, or the first register from the drawn one on that isn't nil.
func (m *mutator) draw(registers *[64]reference) operands {
	draw := func() int { return m.random.Intn(drawn) }
	with := operands{to: draw(), object: draw(), value: draw(), other: draw(), fields: g[:]}
	for i := 0; i < drawn && registers[with.object] == nil; i++ {
		with.object = (with.object + 1) % drawn
	}
	if object := registers[with.object]; object == nil || m.random.Intn(8) == 0 {
		with.object = shared
	} else {
		with.fields, with.isFixed = fieldsOf(object), isPair(object)
	}
	with.at = m.random.Intn(len(with.fields))
	with.count = 1 + m.random.Intn(len(with.fields)-with.at)
	return with
}

// Does a command that is drawn and logs it. Returns what its register is to hold, and whether it has one.
func (m *mutator) command(with operands, registers *[64]reference) (reference, bool) {
	value := registers[with.value]
	kind := m.random.Intn(100)
	switch {
	case kind < 20:
		return m.make(kind, with, registers), true
	case kind < 24:
		m.log(opMov, 0, with.to, with.value)
		return value, true
	case kind < 34:
		m.log(opNil, 0, with.to)
		return nil, true
	case kind < 58 || with.isFixed:
		loaded := with.fields[with.at]
		m.log(opGet, head(loaded), with.to, with.object, with.at)
		return loaded, true
	case kind < 78:
		with.fields[with.at] = value
		m.log(opSet, 0, with.object, with.at, with.value)
	case kind < 84:
		m.compareAndSwap(with, registers)
	case kind < 89:
		old := atomic.SwapPointer(&with.fields[with.at], value)
		m.log(opSwap, head(old), with.to, with.object, with.at, with.value)
		return old, true
	case kind < 97:
		m.copy(with, registers)
	default:
		part := with.fields[with.at : with.at+with.count]
		for i := range part {
			part[i] = nil
		}
		m.log(opClear, 0, with.object, with.at, with.count)
	}
	return nil, false
}

// Makes an object.
func (m *mutator) make(kind int, with operands, registers *[64]reference) reference {
	value := registers[with.value]
	serial := m.serial
	m.serial++
	switch {
	case kind < 6:
		made := &pair{head: headOf(kindPair, 2, m.number, serial)}
		made.fields[0], made.fields[1] = registers[with.other], value
		m.log(opPair, made.head, with.to, with.other, with.value)
		return reference(made)
	case kind < 12:
		made := &variable{head: headOf(kindVariable, 1, m.number, serial)}
		made.fields[0] = value
		m.log(opVariable, made.head, with.to, with.value)
		return reference(made)
	case kind < 17:
		made := &array8{head: headOf(kindArray, 8, m.number, serial)}
		for i := range made.fields {
			made.fields[i] = value
		}
		m.log(opArray, made.head, with.to, 8, with.value)
		return reference(made)
	default:
		made := &array24{head: headOf(kindArray, 24, m.number, serial)}
		for i := range made.fields {
			made.fields[i] = value
		}
		m.log(opArray, made.head, with.to, 24, with.value)
		return reference(made)
	}
}

// Stores a value if the field has the expected one, which it mostly has.
func (m *mutator) compareAndSwap(with operands, registers *[64]reference) {
	expected := with.other
	for i, held := range registers[:drawn] {
		if held == with.fields[with.at] {
			expected = i
		}
	}
	answer := uint64(0)
	if atomic.CompareAndSwapPointer(&with.fields[with.at], registers[expected], registers[with.value]) {
		answer = 1
	}
	m.log(opCas, answer, with.object, with.at, expected, with.value)
}

// Copies fields of another object, by `copy` or four of them by one assignment.
func (m *mutator) copy(with operands, registers *[64]reference) {
	source := registers[with.other]
	if source == nil {
		return
	}
	fields := fieldsOf(source)
	from := m.random.Intn(len(fields))
	count := with.count
	if count > len(fields)-from {
		count = len(fields) - from
	}
	if count == 4 {
		*(*four)(unsafe.Pointer(&with.fields[with.at])) = *(*four)(unsafe.Pointer(&fields[from]))
	} else {
		copy(with.fields[with.at:with.at+count], fields[from:from+count])
	}
	m.log(opCopy, 0, with.object, with.at, with.other, from, count)
}
