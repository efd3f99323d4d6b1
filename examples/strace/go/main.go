// A Go program: raw system calls change one thread, and those of package syscall all threads, which
// the runtime has them make one after another, without libc (golang.org/issue/1435).
package main

import (
	"os/exec"
	"runtime"
	"syscall"
)

func main() {
	stay, done := make(chan bool), make(chan bool)
	for i := 0; i < 2; i++ {
		go func() {
			runtime.LockOSThread()
			syscall.Getuid()
			<-stay
			syscall.Getgid()
			done <- true
		}()
	}
	runtime.LockOSThread()
	keep := ^uintptr(0)
	syscall.RawSyscall(syscall.SYS_SETRESUID, keep, 1000, keep)
	syscall.Geteuid()
	syscall.RawSyscall(syscall.SYS_SETRESUID, keep, 0, keep)
	syscall.Setgroups([]int{5, 6})
	syscall.Setresgid(1000, 1000, 1000)
	syscall.Setresuid(1000, 1000, 1000)
	for i := 0; i < 2; i++ {
		stay <- true
		<-done
	}
	syscall.Setuid(0)
	exec.Command("/usr/bin/setpriv", "--dump").Run()
}
