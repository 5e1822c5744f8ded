# cmake --toolchain cmake/aarch64-linux-gnu.cmake
set(triple aarch64-linux-gnu)
set(qemu aarch64)
include(${CMAKE_CURRENT_LIST_DIR}/linux-gnu.cmake)
