# cmake --toolchain cmake/s390x-linux-gnu.cmake
set(triple s390x-linux-gnu)
set(qemu s390x)
include(${CMAKE_CURRENT_LIST_DIR}/linux-gnu.cmake)
