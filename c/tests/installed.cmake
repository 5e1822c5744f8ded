# Tests of the installed library, in a folder whose name has a blank and parentheses, and of the archive of a release.
set(INSTALLED "${HERE}/in (stalled)")
set(LIB ${INSTALLED}/${CMAKE_INSTALL_LIBDIR})
set(WITH PROPERTIES FIXTURES_REQUIRED installed)
test(installed PROPERTIES FIXTURES_SETUP installed COMMAND sh -c
  "rm -rf '${INSTALLED}'; '${CMAKE_COMMAND}' --install '${PROJECT_BINARY_DIR}' --prefix '${INSTALLED}'")
set(PAGES const_hex ${FUNCTIONS})
list(TRANSFORM PAGES REPLACE "(.+)" "644 f share/man/man3/\\1.3")
list(JOIN PAGES "\n" PAGES)
file(CONFIGURE OUTPUT installed.txt CONTENT "644 f include/const_hex.h
644 f lib/cmake/const_hex/const_hexConfig-release.cmake
644 f lib/cmake/const_hex/const_hexConfig.cmake
644 f lib/cmake/const_hex/const_hexConfigVersion.cmake
644 f lib/libconst_hex.a
777 l lib/libconst_hex.so
777 l lib/libconst_hex.so.1
644 f lib/libconst_hex.so.${PROJECT_VERSION}
644 f lib/pkgconfig/const_hex.pc
${PAGES}\n")
set(LIST "find . ! -type d -printf '%m %y %P\\n' | LC_ALL=C sort -k 3")
test(installed.files ${WITH} COMMAND sh -c "cd '${INSTALLED}' && ${LIST} | diff '${HERE}/installed.txt' -")
test(installed.names_no_folder ${WITH} COMMAND sh -c
  "grep -rlF -e '${PROJECT_SOURCE_DIR}' -e '${PROJECT_BINARY_DIR}' -e '${INSTALLED}' '${INSTALLED}'; test $? -eq 1")
foreach(function const_hex ${FUNCTIONS})
  test(installed.page_of_${function} NEEDS man ${WITH} FAIL_REGULAR_EXPRESSION "warning|No manual entry"
    PASS_REGULAR_EXPRESSION "${function}[ (,_]" COMMAND env LC_ALL=C.UTF-8 man --warnings -M ${INSTALLED}/share/man 3 ${function})
endforeach()
test(installed.version NEEDS pkg-config COMMAND env "PKG_CONFIG_PATH=${LIB}/pkgconfig"
  pkg-config --modversion const_hex ${WITH} PASS_REGULAR_EXPRESSION "^${PROJECT_VERSION}\n$")

# Adds a test of the program unhex, which commands of a shell make in a folder of its own. ARGN is what they need.
function(test_made_by name commands)
  file(MAKE_DIRECTORY ${HERE}/${name})
  list(JOIN TEST_UNHEX "' '" run)
  test(${name} NEEDS python3 ${ARGN} COMMAND sh -ec "cd '${HERE}/${name}'\n${commands}\n'${run}' ./unhex"
    PROPERTIES FIXTURES_REQUIRED "installed;unpacked" ENVIRONMENT
    "PKG_CONFIG_PATH=${LIB}/pkgconfig;LD_LIBRARY_PATH=${LIB}")
endfunction()
# The same, by a compiler. `library` has the options for the library, or else pkg-config prints them.
function(test_compiled name compiler language library)
  set(flags "${TARGET} -Wall -Wextra -Werror -O2 -x ${language} '${EXAMPLES}/unhex.c' -x none -o unhex")
  test_made_by(installed.${name} "${PKG_CONFIG}'${compiler}' ${flags} ${library}" ${compiler} ${ARGN})
endfunction()
set(PKG_CONFIG "pkg-config --cflags --libs const_hex | xargs ")
test_compiled(pkg-config_C ${CMAKE_C_COMPILER} c "" pkg-config)
test_compiled(pkg-config_C_static ${CMAKE_C_COMPILER} c -static pkg-config)
if(NOT CMAKE_CROSSCOMPILING)
  test_compiled(pkg-config_CXX c++ c++ "" pkg-config)
  # With another libc.
  set(PKG_CONFIG)
  set(INCLUDE "'-I${INSTALLED}/include'")
  test_compiled(musl_static musl-gcc c "${INCLUDE} -static '${LIB}/libconst_hex.a'")
  test_compiled(musl_shared musl-gcc c "${INCLUDE} '${LIB}/libconst_hex.so' '-Wl,-rpath,${LIB}'")
endif()
# By CMake, from this folder or the archive.
set(toolchain)
if(CMAKE_TOOLCHAIN_FILE)
  get_filename_component(toolchain ${CMAKE_TOOLCHAIN_FILE} ABSOLUTE BASE_DIR ${PROJECT_SOURCE_DIR})
  set(toolchain -DCMAKE_TOOLCHAIN_FILE=${toolchain})
endif()
function(test_cmake_project name prefix)
  test(${name} NEEDS python3 COMMAND ${CMAKE_CTEST_COMMAND} --build-and-test ${EXAMPLES} ${HERE}/${name}
    --build-generator ${CMAKE_GENERATOR} --build-options "-DCMAKE_PREFIX_PATH=${prefix}" ${toolchain} ${ARGN}
    --test-command ${TEST_UNHEX} ./unhex PROPERTIES FIXTURES_REQUIRED "installed;unpacked")
endfunction()
test_cmake_project(installed.cmake ${INSTALLED})
test_cmake_project(installed.cmake_static ${INSTALLED} -DLIBRARY=const_hex::static)

# In another project, by the lines of README.md.
file(READ ${PROJECT_SOURCE_DIR}/README.md page)
string(REGEX MATCH "```cmake\n([^`]*)```" page "${page}")
string(REPLACE "const_hex/c)" "\"${PROJECT_SOURCE_DIR}\" const_hex)" lines "${CMAKE_MATCH_1}")
string(REPLACE "::const_hex)" "::\${LIBRARY})" lines "${lines}")
file(CONFIGURE OUTPUT project/CMakeLists.txt CONTENT "cmake_minimum_required(VERSION 3.21)
project(program C)
add_executable(program \"${EXAMPLES}/unhex.c\")
@lines@
install(TARGETS program)\n" @ONLY)
foreach(library const_hex static)
  test(subdirectory.${library} NEEDS python3 COMMAND ${CMAKE_CTEST_COMMAND} --build-and-test ${HERE}/project
    ${HERE}/subdirectory_${library} --build-generator ${CMAKE_GENERATOR} --build-options -DLIBRARY=${library} ${toolchain}
    -DCONST_HEX_PORTABLE=${CONST_HEX_PORTABLE} --test-command ${TEST_UNHEX} ./program)
endforeach()
# By the compiler alone.
set(sources "'${PROJECT_SOURCE_DIR}'/asm/*.S")
if(CONST_HEX_PORTABLE)
  set(sources "'${PROJECT_SOURCE_DIR}/portable.c'")
endif()
list(JOIN TEST_UNHEX "' '" run)
test(one_line NEEDS python3 COMMAND sh -ec "rm -rf one_line && mkdir one_line && cd one_line
  '${CMAKE_C_COMPILER}' ${TARGET} -c ${sources} && ar rcs libconst_hex.a *.o
  '${CMAKE_C_COMPILER}' ${TARGET} '-I${PROJECT_SOURCE_DIR}' '${EXAMPLES}/unhex.c' libconst_hex.a -o unhex
  '${run}' ./unhex")

# The archive of a release. It is made with a umask on which the modes of its files must not depend.
if(CONST_HEX_PORTABLE)
  return()
endif()
set(ARCHIVE "${HERE}/un packed/${RELEASE}")
test(archive PROPERTIES FIXTURES_SETUP unpacked COMMAND sh -c "rm -rf 'un packed' packed && mkdir 'un packed' &&
  (umask 077; '${CMAKE_CPACK_COMMAND}' --config '${PROJECT_BINARY_DIR}/CPackConfig.cmake' -B packed) &&
  tar xzf packed/*.tar.gz -C 'un packed'")
set(WITH PROPERTIES FIXTURES_REQUIRED unpacked)
test(archive.is_readable_by_all ${WITH} COMMAND sh -c "test \"$(find '${ARCHIVE}' ! -perm -444)\" = ''")
test(archive.sums ${WITH} COMMAND sh -c "cd '${ARCHIVE}' && sha256sum --quiet -c SHA256SUMS && LC_ALL=C &&
  sed 's/.*  //' SHA256SUMS | sort > '${HERE}/summed' &&
  find . -type f ! -name SHA256SUMS -printf '%P\\n' | sort | diff '${HERE}/summed' -")
test(archive.has_licences_and_no_build_output ${WITH} COMMAND sh -ec "cd '${ARCHIVE}'
  test -s LICENSE-APACHE && test -s LICENSE-MIT && test -s NOTICE
  test \"$(grep -c '@' README.md)\" = 0
  test \"$(find . -name build -o -name out -o -name 'CMakeCache*')\" = ''")
test_cmake_project(archive.cmake ${ARCHIVE})
if(NOT CMAKE_CROSSCOMPILING)
  # The line for cc of its README, and that for c++.
  foreach(compiler cc c++)
    test_made_by(archive.readme_${compiler} "cp -R '${ARCHIVE}/.' .
      cp '${EXAMPLES}/unhex.c' program.c && cp program.c program.cpp
      eval \"$(sed -n 's/^    ${compiler} /${compiler} /p' README.md)\" && mv program unhex" ${compiler})
  endforeach()
endif()
