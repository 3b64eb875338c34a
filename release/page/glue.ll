; The heap of the toolchain's `libc`, which its code calls by these names, over that of heap.c.

declare ptr @heap_alloc(i64)
declare ptr @heap_realloc(ptr, i64, i64)
declare void @heap_free(ptr)

define internal { i64, i64 } @rattle_tried(ptr %p) alwaysinline {
  %ok = icmp ne ptr %p, null
  %w = zext i1 %ok to i64
  %at = select i1 %ok, ptr %p, ptr inttoptr (i64 16 to ptr)
  %i = ptrtoint ptr %at to i64
  %r0 = insertvalue { i64, i64 } poison, i64 %w, 0
  %r1 = insertvalue { i64, i64 } %r0, i64 %i, 1
  ret { i64, i64 } %r1
}

define internal { i64, i64 } @rattle_alloc(i64 %n, i64 %a) {
  %z = icmp eq i64 %n, 0
  %m = select i1 %z, i64 %a, i64 %n
  %p = call ptr @heap_alloc(i64 %m)
  %r = call { i64, i64 } @rattle_tried(ptr %p)
  ret { i64, i64 } %r
}

define internal { i64, i64 } @rattle_realloc(ptr %q, i64 %kept, i64 %n, i64 %a) {
  %z = icmp eq i64 %n, 0
  %m = select i1 %z, i64 %a, i64 %n
  %p = call ptr @heap_realloc(ptr %q, i64 %kept, i64 %m)
  %r = call { i64, i64 } @rattle_tried(ptr %p)
  ret { i64, i64 } %r
}

define internal void @rattle_dealloc(ptr %p) {
  call void @heap_free(ptr %p)
  ret void
}
