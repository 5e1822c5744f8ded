# For cpack: a Debian package has its licences in a folder of its own, and none of the extra files of an archive.
if(CPACK_GENERATOR STREQUAL DEB)
  list(TRANSFORM CPACK_INSTALL_CMAKE_PROJECTS REPLACE "^archive$" debian)
endif()
