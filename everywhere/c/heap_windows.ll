; The kit's heap over the C library of Windows, as its clauses ask (libc/src/heap.rt). It is in LLVM's language, since C there returns
; no pair of words in registers, as the module does: whether there is memory, and its place.
target triple = "x86_64-w64-windows-gnu"

declare ptr @malloc(i64)
declare ptr @realloc(ptr, i64)
declare void @free(ptr)

; what is pointed to where there is no memory
@none = internal global i64 0, align 16

define internal { i64, i64 } @tried(ptr %place) {
  %fails = icmp eq ptr %place, null
  %given = select i1 %fails, ptr @none, ptr %place
  %is_ok = select i1 %fails, i64 0, i64 1
  %number = ptrtoint ptr %given to i64
  %ok = insertvalue { i64, i64 } poison, i64 %is_ok, 0
  %pair = insertvalue { i64, i64 } %ok, i64 %number, 1
  ret { i64, i64 } %pair
}

; (malloc aligns to 16, and no block is asked for that is wider)
define { i64, i64 } @rattle_alloc(i64 %size, i64 %alignment) {
  %wanted = call i64 @llvm.umax.i64(i64 %size, i64 1)
  %place = call ptr @malloc(i64 %wanted)
  %pair = call { i64, i64 } @tried(ptr %place)
  ret { i64, i64 } %pair
}

define { i64, i64 } @rattle_realloc(ptr %block, i64 %kept, i64 %size, i64 %alignment) {
  %wanted = call i64 @llvm.umax.i64(i64 %size, i64 1)
  %place = call ptr @realloc(ptr %block, i64 %wanted)
  %pair = call { i64, i64 } @tried(ptr %place)
  ret { i64, i64 } %pair
}

define void @rattle_dealloc(ptr %block) {
  call void @free(ptr %block)
  ret void
}

declare i64 @llvm.umax.i64(i64, i64)
