; What the kit's C helper does on x86_64 Linux, for other machines: the memory of a program is the C library's. Each returns whether there was memory,
; and where it is. It is no C, since a result of two words is no struct of C on every machine.
@nothing = internal global i64 0

declare ptr @malloc(i64)
declare ptr @realloc(ptr, i64)
declare void @free(ptr)

define private { i64, i64 } @tried(ptr %p) {
  %ok = icmp ne ptr %p, null
  %q = select i1 %ok, ptr %p, ptr @nothing
  %o = zext i1 %ok to i64
  %i = ptrtoint ptr %q to i64
  %first = insertvalue { i64, i64 } poison, i64 %o, 0
  %both = insertvalue { i64, i64 } %first, i64 %i, 1
  ret { i64, i64 } %both
}

; bytes, alignment (at most that of malloc)
define { i64, i64 } @rattle_alloc(i64 %n, i64 %a) {
  %none = icmp eq i64 %n, 0
  %m = select i1 %none, i64 %a, i64 %n
  %p = call ptr @malloc(i64 %m)
  %r = call { i64, i64 } @tried(ptr %p)
  ret { i64, i64 } %r
}

; the block, how many of its bytes stay, bytes, alignment
define { i64, i64 } @rattle_realloc(ptr %b, i64 %kept, i64 %n, i64 %a) {
  %none = icmp eq i64 %n, 0
  %m = select i1 %none, i64 %a, i64 %n
  %p = call ptr @realloc(ptr %b, i64 %m)
  %r = call { i64, i64 } @tried(ptr %p)
  ret { i64, i64 } %r
}

define void @rattle_dealloc(ptr %b) {
  call void @free(ptr %b)
  ret void
}
