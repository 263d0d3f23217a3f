;; Moves amounts between accounts of the bank: by its functions, and with a look into its memory and its count.
(module
  (import "bank" "book" (func $book (param i32 i64)))
  (import "bank" "accounts" (memory 1))
  (import "bank" "bookings" (global $bookings (mut i32)))
  (func (export "move") (param $from i32) (param $to i32) (param $amount i64) (result i32)
    (if (i64.lt_u (i64.load (i32.shl (local.get $from) (i32.const 3))) (local.get $amount))
      (then (return (i32.const 0))))
    local.get $from i64.const 0 local.get $amount i64.sub call $book
    local.get $to local.get $amount call $book
    global.get $bookings)
)
