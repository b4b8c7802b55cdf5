; The heap that the proved library asks for, over malloc, realloc and free. The kit brings these functions for Linux on
; x86-64 alone. They aren't C, since C on Windows returns two numbers in memory, and the library wants them in registers:
; 1 and the block, or 0 and an address that nobody uses. A block of no bytes takes as many as its alignment.
declare ptr @malloc(i64)
declare ptr @realloc(ptr, i64)
declare void @free(ptr)

@none = internal global i64 0

define internal i64 @bytes(i64 %size, i64 %alignment) {
  %is_empty = icmp eq i64 %size, 0
  %bytes = select i1 %is_empty, i64 %alignment, i64 %size
  ret i64 %bytes
}

define internal { i64, i64 } @tried(ptr %block) {
  %is_there = icmp ne ptr %block, null
  %some = select i1 %is_there, ptr %block, ptr @none
  %first = zext i1 %is_there to i64
  %second = ptrtoint ptr %some to i64
  %one = insertvalue { i64, i64 } poison, i64 %first, 0
  %two = insertvalue { i64, i64 } %one, i64 %second, 1
  ret { i64, i64 } %two
}

define { i64, i64 } @rattle_alloc(i64 %size, i64 %alignment) {
  %bytes = call i64 @bytes(i64 %size, i64 %alignment)
  %block = call ptr @malloc(i64 %bytes)
  %tried = call { i64, i64 } @tried(ptr %block)
  ret { i64, i64 } %tried
}

define { i64, i64 } @rattle_realloc(ptr %old, i64 %old_size, i64 %size, i64 %alignment) {
  %bytes = call i64 @bytes(i64 %size, i64 %alignment)
  %block = call ptr @realloc(ptr %old, i64 %bytes)
  %tried = call { i64, i64 } @tried(ptr %block)
  ret { i64, i64 } %tried
}

define void @rattle_dealloc(ptr %block) {
  call void @free(ptr %block)
  ret void
}
