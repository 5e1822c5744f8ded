# cmake --toolchain cmake/arm-linux-gnueabihf.cmake
set(triple arm-linux-gnueabihf)
set(qemu arm)
include(${CMAKE_CURRENT_LIST_DIR}/linux-gnu.cmake)
