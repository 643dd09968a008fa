// The words of a command line, and the longest stop of a run.
package main

import (
	"os"
	"runtime/metrics"
	"strconv"
)

// argument returns the number that is argument i, or another one if there is no such argument.
func argument(i, otherwise int) int {
	if len(os.Args) <= i {
		return otherwise
	}
	n, _ := strconv.Atoi(os.Args[i])
	return n
}

// longestStop returns the upper bound, in milliseconds, of the runtime's last class of pauses that has one.
func longestStop() float64 {
	sample := []metrics.Sample{{Name: "/gc/pauses:seconds"}}
	metrics.Read(sample)
	pauses := sample[0].Value.Float64Histogram()
	longest := 0.0
	for i, count := range pauses.Counts {
		if count > 0 {
			longest = pauses.Buckets[i+1]
		}
	}
	return longest * 1000
}
