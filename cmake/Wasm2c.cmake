# wasm2c_add_module(TARGET MODULE FILE.wasm [NAME NAME] [RUNTIME RUNTIME] [TRANSLATOR PROGRAM])
#
# Makes of a WebAssembly module a static library TARGET: wasm2c translates FILE.wasm to a unit and its header at build time, and what links
# with TARGET finds the header as NAME.h. Where a module imports from others, link their libraries: target_link_libraries(TARGET PUBLIC ..).
#
#   FILE.wasm   its path, from the current source folder
#   NAME        the module's name, by which others import from it and by which symbols and header are called; else that of its file
#   RUNTIME     `fast` (where it is left out), `guard`, `plain`, or the folder of another one. All modules of a program take the same.
#   TRANSLATOR  the program; else that of the cache entry WASM2C, which is the one that came with this file
#
# The libraries of runtimes are w2c_runtime_fast, w2c_runtime_guard and so on. A program that defines w2c_trap itself takes the place of that
# of the fast and the guard one; with the plain one it adds target_compile_definitions(w2c_runtime_plain PRIVATE w2c_trap=w2c_trap_ending).
# Units want -O3 or -O2: CMAKE_BUILD_TYPE Release.
cmake_minimum_required(VERSION 3.13)

# What came with this file: in a checkout, else in an installation.
get_filename_component(WASM2C_TOP "${CMAKE_CURRENT_LIST_DIR}/.." ABSOLUTE)
if(EXISTS "${WASM2C_TOP}/examples/fast_runtime/w2c_rt.h")
  set(WASM2C_RUNTIME_fast "${WASM2C_TOP}/examples/fast_runtime")
  set(WASM2C_RUNTIME_guard "${WASM2C_TOP}/examples/guard_runtime")
  set(WASM2C_RUNTIME_plain "${WASM2C_TOP}/examples")
else()
  get_filename_component(WASM2C_TOP "${CMAKE_CURRENT_LIST_DIR}/../../.." ABSOLUTE)
  foreach(name fast guard plain)
    set(WASM2C_RUNTIME_${name} "${WASM2C_TOP}/share/lagwimet/runtime/${name}")
  endforeach()
endif()
# Of no other folder: WABT has a program of the same name.
find_program(WASM2C wasm2c PATHS "${WASM2C_TOP}/bin" NO_DEFAULT_PATH DOC "the translator from WebAssembly to C")

# The library of a runtime, made once for a project: sets RESULT to its name.
function(wasm2c_runtime RUNTIME RESULT)
  set(folder "${RUNTIME}")
  if(DEFINED WASM2C_RUNTIME_${RUNTIME})
    set(folder "${WASM2C_RUNTIME_${RUNTIME}}")
  endif()
  get_filename_component(folder "${folder}" ABSOLUTE)
  if(NOT EXISTS "${folder}/w2c_rt.h")
    message(FATAL_ERROR "wasm2c_add_module: there is no runtime in ${folder}")
  endif()
  get_filename_component(target "${RUNTIME}" NAME)
  string(MAKE_C_IDENTIFIER "w2c_runtime_${target}" target)
  if(NOT TARGET ${target})
    file(GLOB sources "${folder}/w2c_*.c")
    add_library(${target} STATIC ${sources})
    target_include_directories(${target} PUBLIC "${folder}")
    target_compile_features(${target} PUBLIC c_std_11)
    # CMake refuses a program of two runtimes.
    set_target_properties(${target} PROPERTIES INTERFACE_W2C_RUNTIME "${folder}" COMPATIBLE_INTERFACE_STRING W2C_RUNTIME)
  endif()
  set(${RESULT} ${target} PARENT_SCOPE)
endfunction()

function(wasm2c_add_module TARGET)
  cmake_parse_arguments(PARSE_ARGV 1 GIVEN "" "MODULE;NAME;RUNTIME;TRANSLATOR" "")
  if(GIVEN_UNPARSED_ARGUMENTS OR NOT GIVEN_MODULE)
    message(FATAL_ERROR "wasm2c_add_module(TARGET MODULE FILE.wasm [NAME NAME] [RUNTIME RUNTIME] [TRANSLATOR PROGRAM])")
  endif()
  if(NOT GIVEN_RUNTIME)
    set(GIVEN_RUNTIME fast)
  endif()
  if(NOT GIVEN_TRANSLATOR)
    set(GIVEN_TRANSLATOR "${WASM2C}")
  endif()
  if(NOT GIVEN_TRANSLATOR)
    message(FATAL_ERROR "wasm2c_add_module: there is no translator: give TRANSLATOR, or WASM2C to cmake (-DWASM2C=PROGRAM)")
  endif()
  get_filename_component(wasm "${GIVEN_MODULE}" ABSOLUTE)
  if(NOT GIVEN_NAME)
    get_filename_component(GIVEN_NAME "${wasm}" NAME)
    string(REGEX REPLACE "(.)[.][^.]*$" "\\1" GIVEN_NAME "${GIVEN_NAME}")
  endif()
  wasm2c_runtime("${GIVEN_RUNTIME}" runtime)
  # A folder for each module: what is included from it is its header alone.
  set(folder "${CMAKE_CURRENT_BINARY_DIR}/${TARGET}.wasm2c")
  file(MAKE_DIRECTORY "${folder}")
  set(unit "${folder}/${GIVEN_NAME}.c")
  set(header "${folder}/${GIVEN_NAME}.h")
  add_custom_command(OUTPUT "${unit}" "${header}" COMMAND "${GIVEN_TRANSLATOR}" "${wasm}" -o "${unit}" -n "${GIVEN_NAME}"
    DEPENDS "${wasm}" VERBATIM)
  add_library(${TARGET} STATIC "${unit}" "${header}")
  target_include_directories(${TARGET} PUBLIC "${folder}")
  target_link_libraries(${TARGET} PUBLIC ${runtime})
endfunction()
