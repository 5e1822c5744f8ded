# cmake --toolchain cmake/riscv64-linux-gnu.cmake
set(triple riscv64-linux-gnu)
set(qemu riscv64)
include(${CMAKE_CURRENT_LIST_DIR}/linux-gnu.cmake)
