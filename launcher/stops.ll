; What a program with run-time checks does where the address sanitizer finds a fault: it stops as it does by the other checks, and prints nothing.
@options = private constant [29 x i8] c"detect_leaks=0:handle_segv=0\00"

define ptr @__asan_default_options() {
  ret ptr @options
}

define void @__asan_on_error() {
  call void @llvm.trap()
  unreachable
}

declare void @llvm.trap()
