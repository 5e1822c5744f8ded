# Makes the archive, for cpack, with the sums of all files. CPack's own archives have their files in no fixed order, and
# the name of who made them.
set(folder ${CPACK_TEMPORARY_DIRECTORY})
set(archive ${CPACK_PACKAGE_DIRECTORY}/${CPACK_PACKAGE_FILE_NAME}.tar.gz)
execute_process(COMMAND find . -type f ! -name SHA256SUMS -printf "%P\\0"
  COMMAND ${CMAKE_COMMAND} -E env LC_ALL=C sort -z COMMAND xargs -0 sha256sum --
  WORKING_DIRECTORY ${folder} OUTPUT_FILE SHA256SUMS COMMAND_ERROR_IS_FATAL ANY)
execute_process(COMMAND tar c --format=ustar --sort=name "--mtime=2000-01-01 00:00Z" --owner=0 --group=0 --numeric-owner
  --mode=u=rwX,go=rX ${CPACK_PACKAGE_FILE_NAME} COMMAND gzip -9n
  WORKING_DIRECTORY ${folder}/.. OUTPUT_FILE ${archive} COMMAND_ERROR_IS_FATAL ANY)
set(CPACK_EXTERNAL_BUILT_PACKAGES ${archive})
