// The load of a large heap in Go: large KIND MIB. Arrays of 62 references, or lists of 1,024 cells, in directories of 4,000.
// MIB counts 512 bytes an array and 32 bytes a cell, as on the other heap. The load fills, and then a quarter as many objects
// take the places of the last directory's.
package main

import (
	"fmt"
	"os"
	"runtime"
	"runtime/debug"
	"sort"
	"strconv"
)

type array [62]*int
type cell struct {
	value *int
	next  *cell
}

func object(kind string, five *int) any {
	if kind == "arrays" {
		it := new(array)
		for i := range it {
			it[i] = five
		}
		return it
	}
	var list *cell
	for i := 0; i < 1024; i++ {
		list = &cell{five, list}
	}
	return list
}

func main() {
	kind := os.Args[1]
	mib, _ := strconv.Atoi(os.Args[2])
	count := mib * 1048576 / map[string]int{"arrays": 512, "cells": 32768}[kind]
	five := new(int)
	var directories [][]any
	for i := 0; i < count; i++ {
		if i%4000 == 0 {
			directories = append(directories, make([]any, 4000))
		}
		directories[len(directories)-1][i%4000] = object(kind, five)
	}
	last := directories[len(directories)-1]
	for i := 0; i < count/4; i++ {
		last[i%min(4000, count)] = object(kind, five)
	}
	var stats debug.GCStats
	debug.ReadGCStats(&stats)
	pauses := append(stats.Pause, 0)
	sort.Slice(pauses, func(a, b int) bool { return pauses[a] > pauses[b] })
	runtime.GC()
	var after runtime.MemStats
	runtime.ReadMemStats(&after)
	fmt.Printf("stop %.3f live %d\n", float64(pauses[0])/1e6, after.HeapAlloc)
	runtime.KeepAlive(directories)
}

func min(a, b int) int {
	if a < b {
		return a
	}
	return b
}
