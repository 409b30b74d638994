; What the host calls of refusing.c. An attribute of C that exports a function would make a table of functions too.
target triple = "wasm64-unknown-unknown"
@until_refused = external global i64
define void @refuse_request(i64 %number) #0 {
  store i64 %number, ptr @until_refused
  ret void
}
define i64 @requests_left() #1 {
  %left = load i64, ptr @until_refused
  ret i64 %left
}
attributes #0 = { nounwind "wasm-export-name"="refuse_request" }
attributes #1 = { nounwind "wasm-export-name"="requests_left" }
