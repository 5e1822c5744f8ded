# `cpack` makes the archive of a release: what is installed, and these extra files. The same libraries make the same
# archive, byte for byte.
string(TOLOWER const_hex-${PROJECT_VERSION}-${CMAKE_SYSTEM_NAME}-${CMAKE_SYSTEM_PROCESSOR} RELEASE)
configure_file(archive.md README.md @ONLY)
set(EXTRA COMPONENT archive EXCLUDE_FROM_ALL)
install(FILES ${PROJECT_BINARY_DIR}/README.md ../LICENSE-APACHE ../LICENSE-MIT ../NOTICE DESTINATION . ${EXTRA})
install(DIRECTORY examples DESTINATION . ${EXTRA} PATTERN build EXCLUDE)
set(CPACK_GENERATOR External)
set(CPACK_EXTERNAL_ENABLE_STAGING ON)
set(CPACK_MONOLITHIC_INSTALL ON)
set(CPACK_EXTERNAL_PACKAGE_SCRIPT ${PROJECT_SOURCE_DIR}/cmake/archive.cmake)
set(CPACK_PACKAGE_FILE_NAME ${RELEASE})
set(CPACK_PACKAGE_CHECKSUM SHA256)
set(CPACK_INSTALL_CMAKE_PROJECTS ${PROJECT_BINARY_DIR} const_hex ALL / ${PROJECT_BINARY_DIR} const_hex archive /)
set(CPACK_VERBATIM_VARIABLES ON)
# `cpack -G DEB` makes a Debian package of what is installed. It is for a build with the prefix /usr. The library is not
# stripped, since `machine_code/prove` finds its functions by names; it needs no other, not even that of C; and one
# package has the library, its link and its header, so it is not named after the library's version.
set(CPACK_PROJECT_CONFIG_FILE ${PROJECT_SOURCE_DIR}/cmake/debian.cmake)
set(CPACK_DEBIAN_PACKAGE_NAME libconst-hex-dev)
# PUBLISHER: write the address here to which users of the package write.
set(CPACK_DEBIAN_PACKAGE_MAINTAINER "the maintainers of const_hex <maintainers@const-hex.invalid>")
set(CPACK_DEBIAN_PACKAGE_ARCHITECTURE amd64)
# The installation fails on a processor without SSE4.2.
set(CPACK_DEBIAN_PACKAGE_DEPENDS sse4.2-support)
if(CMAKE_SYSTEM_PROCESSOR MATCHES "aarch64|arm64")
  set(CPACK_DEBIAN_PACKAGE_ARCHITECTURE arm64)
  set(CPACK_DEBIAN_PACKAGE_DEPENDS "")
endif()
set(CPACK_DEBIAN_PACKAGE_SECTION libdevel)
set(CPACK_PACKAGE_DESCRIPTION "The machine code of the library is formally verified, and constant-time
for valid input, except for const_hex_error_message. The package has the header, and both
libraries.")
file(WRITE ${PROJECT_BINARY_DIR}/triggers "activate-noawait ldconfig\n")
file(WRITE ${PROJECT_BINARY_DIR}/shlibs "libconst_hex ${PROJECT_VERSION_MAJOR} libconst-hex-dev (>= ${PROJECT_VERSION})\n")
set(CPACK_DEBIAN_PACKAGE_CONTROL_EXTRA ${PROJECT_BINARY_DIR}/triggers ${PROJECT_BINARY_DIR}/shlibs)
set(CPACK_DEBIAN_FILE_NAME DEB-DEFAULT)
file(READ ../LICENSE-MIT text)
file(WRITE ${PROJECT_BINARY_DIR}/copyright
  "MIT, as below, or Apache 2.0, whose text is in /usr/share/common-licenses/Apache-2.0.\n\n${text}")
install(FILES ${PROJECT_BINARY_DIR}/copyright ../NOTICE DESTINATION share/doc/libconst-hex-dev
  COMPONENT debian EXCLUDE_FROM_ALL)
include(CPack)
