# Builds for Linux on another processor, and runs the tests by QEMU. A file for a processor sets `triple` and `qemu`,
# and includes this one. With -DCMAKE_C_COMPILER=clang it is clang that builds.
set(CMAKE_SYSTEM_NAME Linux)
string(REGEX MATCH "^[^-]*" CMAKE_SYSTEM_PROCESSOR ${triple})
if(CMAKE_C_COMPILER MATCHES clang)
  set(CMAKE_C_COMPILER_TARGET ${triple})
  set(CMAKE_ASM_COMPILER_TARGET ${triple})
else()
  set(CMAKE_C_COMPILER ${triple}-gcc)
endif()
set(CMAKE_CROSSCOMPILING_EMULATOR env QEMU_LD_PREFIX=/usr/${triple} qemu-${qemu})
