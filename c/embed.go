// A program that calls the library by cgo.
//
// With libringplan.so beside this file: go run embed.go check < bundle. It prints and ends as `ringplan check` does.
package main

/*
#cgo LDFLAGS: -L${SRCDIR} -lringplan -Wl,-rpath,${SRCDIR}
#include "ringplan.h"
*/
import "C"

import (
	"fmt"
	"io"
	"os"
	"unsafe"
)

// A Status is what became of a call: the exit status of the program, or that the room was too small.
type Status uint8

const (
	Done        Status = C.RINGPLAN_DONE
	PlanRefused Status = C.RINGPLAN_PLAN_REFUSED
	TextRefused Status = C.RINGPLAN_TEXT_REFUSED
	OutOfMemory Status = C.RINGPLAN_OUT_OF_MEMORY
	MoreRoom    Status = C.RINGPLAN_MORE_ROOM
)

// first is where the bytes begin, and nil where there are none.
func first(bytes []byte) *C.uint8_t {
	if len(bytes) == 0 {
		return nil
	}
	return (*C.uint8_t)(unsafe.Pointer(&bytes[0]))
}

// once makes one call of the job, and returns its status and the length of its text. The library keeps neither slice.
func once(job string, input, output []byte) (Status, int) {
	from, count := first(input), C.size_t(len(input))
	to, room := first(output), C.size_t(len(output))
	var length C.size_t
	var status C.uint8_t
	switch job {
	case "check":
		status = C.ringplan_check(from, count, to, room, &length)
	case "plan":
		status = C.ringplan_plan(from, count, to, room, &length)
	case "play":
		status = C.ringplan_play(from, count, to, room, &length)
	case "migrate":
		status = C.ringplan_migrate(from, count, to, room, &length)
	case "replay":
		status = C.ringplan_replay(from, count, to, room, &length)
	default:
		panic("no job " + job)
	}
	return Status(status), int(length)
}

// Answer returns what `ringplan JOB` would print of the bundle, and its exit status. The bundle must not be written meanwhile.
func Answer(job string, bundle []byte) (Status, []byte) {
	output := make([]byte, C.RINGPLAN_LINE)
	status, length := once(job, bundle, output)
	if status == MoreRoom {
		output = make([]byte, length)
		status, length = once(job, bundle, output)
	}
	return status, output[:length]
}

func main() {
	bundle, err := io.ReadAll(os.Stdin)
	if err != nil || len(os.Args) != 2 {
		fmt.Fprintln(os.Stderr, "embed check|plan|play|migrate|replay < bundle")
		os.Exit(64)
	}
	status, text := Answer(os.Args[1], bundle)
	os.Stdout.Write(text)
	os.Exit(int(status))
}
