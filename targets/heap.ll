; The heap of the proved code, over malloc, realloc and free: the functions that the toolchain's liblibc_c.a has for Linux on x86-64.
; They are written in LLVM's language since they return two registers, for which C has no type that every system returns so.
; Each returns 1 and the block, or 0 and an address at which nothing is read or written. A block of 0 bytes gets as many as it is aligned to.
@nothing = internal global [64 x i8] zeroinitializer, align 64

declare ptr @malloc(i64)
declare ptr @realloc(ptr, i64)
declare void @free(ptr)

define internal { i64, i64 } @answer(ptr %block) alwaysinline {
  %found = icmp ne ptr %block, null
  %place = select i1 %found, ptr %block, ptr @nothing
  %flag = zext i1 %found to i64
  %address = ptrtoint ptr %place to i64
  %first = insertvalue { i64, i64 } poison, i64 %flag, 0
  %both = insertvalue { i64, i64 } %first, i64 %address, 1
  ret { i64, i64 } %both
}

define { i64, i64 } @rattle_alloc(i64 %size, i64 %align) {
  %empty = icmp eq i64 %size, 0
  %bytes = select i1 %empty, i64 %align, i64 %size
  %block = call ptr @malloc(i64 %bytes)
  %answer = call { i64, i64 } @answer(ptr %block)
  ret { i64, i64 } %answer
}

define { i64, i64 } @rattle_realloc(ptr %old, i64 %kept, i64 %size, i64 %align) {
  %empty = icmp eq i64 %size, 0
  %bytes = select i1 %empty, i64 %align, i64 %size
  %block = call ptr @realloc(ptr %old, i64 %bytes)
  %answer = call { i64, i64 } @answer(ptr %block)
  ret { i64, i64 } %answer
}

define void @rattle_dealloc(ptr %block) {
  call void @free(ptr %block)
  ret void
}
