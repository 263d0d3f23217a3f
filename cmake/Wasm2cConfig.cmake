# find_package(Wasm2c): bin/install puts this beside Wasm2c.cmake.
include("${CMAKE_CURRENT_LIST_DIR}/Wasm2c.cmake")
