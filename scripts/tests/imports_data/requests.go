// Requests blocks of known sizes, and writes its heap profile into the file NAME.pb.gz, and as the older text into NAME.heap. Its words are
// after how many bytes a block is sampled, and NAME.
package main

import (
	"os"
	"runtime"
	"runtime/pprof"
	"strconv"
)

var kept [][]byte

//go:noinline
func small() {
	for i := 0; i < 1000; i++ {
		kept = append(kept, make([]byte, 25))
	}
}

//go:noinline
func half() {
	for i := 0; i < 20000; i++ {
		block := make([]byte, 200)
		if i%2 == 0 {
			kept = append(kept, block)
		}
	}
}

func write(name string, form int) {
	file, err := os.Create(name)
	if err == nil {
		err = pprof.Lookup("heap").WriteTo(file, form)
	}
	if err != nil {
		panic(err)
	}
	file.Close()
}

func main() {
	runtime.MemProfileRate, _ = strconv.Atoi(os.Args[1])
	kept = make([][]byte, 0, 40000)
	small()
	half()
	runtime.GC()
	write(os.Args[2]+".pb.gz", 0)
	write(os.Args[2]+".heap", 1)
	runtime.KeepAlive(kept)
}
