;; Accounts: a memory with a balance of 8 bytes for each, a count of bookings, and two functions.
(module
  (memory (export "accounts") 1 1)
  (global $bookings (export "bookings") (mut i32) (i32.const 0))
  (func $place (param $account i32) (result i32)
    local.get $account i32.const 8191 i32.and i32.const 3 i32.shl)
  (func (export "balance") (param $account i32) (result i64)
    local.get $account call $place i64.load)
  (func (export "book") (param $account i32) (param $amount i64)
    local.get $account call $place
    local.get $account call $place i64.load
    local.get $amount i64.add
    i64.store
    global.get $bookings i32.const 1 i32.add global.set $bookings)
)
