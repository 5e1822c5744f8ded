# Tests of the files of both libraries.
set(SHARED $<TARGET_FILE:const_hex>)
# The loader binds all at once, and then closes what it has filled in.
foreach(row "soname=SONAME.*\\[libconst_hex.so.1\\]" bind_now=BIND_NOW relro=GNU_RELRO
    "stack_is_not_executable=GNU_STACK.* RW ")
  string(REGEX MATCH "^([a-z_]+)=(.*)" row "${row}")
  test(library.${CMAKE_MATCH_1} COMMAND ${CMAKE_READELF} -dlW ${SHARED}
    PROPERTIES PASS_REGULAR_EXPRESSION "${CMAKE_MATCH_2}")
endforeach()
# It exports the functions of the header and nothing else, and the archive has no other prefix of names.
list(SORT FUNCTIONS)
list(JOIN FUNCTIONS "\n" exported)
file(CONFIGURE OUTPUT exported CONTENT "${exported}\n")
test(library.exports COMMAND sh -c
  "'${CMAKE_NM}' -D --defined-only '${SHARED}' | sed 's/.* //' | LC_ALL=C sort | diff exported -")
if(NOT CONST_HEX_PORTABLE)
  test(library.archive_names COMMAND ${CMAKE_NM} -g --defined-only $<TARGET_FILE:const_hex_static> PROPERTIES
    PASS_REGULAR_EXPRESSION " T const_hex_decode\n" FAIL_REGULAR_EXPRESSION " [A-Z] (c[^o]|[^c])")
  # Each kernel works on whole vectors. A loop over bytes would return the same.
  foreach(row "kernel_x86_64_v2=pshufb.*xmm" "kernel_x86_64_v3=vpshufb.*ymm" "kernel_aarch64=[.]16b")
    string(REGEX MATCH "^(.*)=(.*)" row "${row}")
    set(file ${CMAKE_MATCH_1})
    if(asm/${file}.S IN_LIST sources)
      test(library.vectors_in_${file} COMMAND sh -ec
        "ar p '$<TARGET_FILE:const_hex_static>' ${file}.S.o > ${file}.o
         '${CMAKE_OBJDUMP}' -d --no-show-raw-insn ${file}.o > ${file}.code
         for name in check fill_lower fill_upper read; do
           sed -n \"/<const_hex_kernel_$name\\(_v[23]\\)\\{0,1\\}>:/,/^$/p\" ${file}.code | grep -q '${CMAKE_MATCH_2}'
         done")
    endif()
  endforeach()
endif()
if(NOT CMAKE_CROSSCOMPILING)
  file(WRITE ${HERE}/abc "abc")
  # The value of FIPS 180-2.
  test(library.loaded_by_Python NEEDS python3 COMMAND python3 -E ${EXAMPLES}/hash.py ${SHARED} abc PROPERTIES
    PASS_REGULAR_EXPRESSION "^0xba7816bf8f01cfea414140de5dae2223b00361a396177a9cb410ff61f20015ad\n$")
endif()
