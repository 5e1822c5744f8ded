# cmake --toolchain cmake/i686-linux-gnu.cmake
set(triple i686-linux-gnu)
set(qemu i386)
include(${CMAKE_CURRENT_LIST_DIR}/linux-gnu.cmake)
