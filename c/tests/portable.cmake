# Tests of portable.c.
set(PORTABLE ${PROJECT_SOURCE_DIR}/portable.c)
# With AddressSanitizer and UndefinedBehaviorSanitizer: out-of-bounds accesses and undefined behavior fail the test.
set(SANITIZE -fsanitize=address,undefined -fno-sanitize-recover=all)
foreach(name check table)
  program(sanitized_${name} ${name}.c ${SANITIZE})
  target_sources(sanitized_${name} PRIVATE ${PORTABLE})
  target_compile_options(sanitized_${name} PRIVATE ${SANITIZE})
  test(sanitized.${name} COMMAND sanitized_${name})
endforeach()
# Each compiler takes it without a warning, for a system or for none.
foreach(row cc clang x86_64-w64-mingw32-gcc "arm-none-eabi-gcc -mcpu=cortex-m0 -ffreestanding")
  separate_arguments(row)
  list(GET row 0 compiler)
  test(compiled_by.${compiler} NEEDS ${compiler} COMMAND ${row} -std=c99 ${WARNINGS} -Wconversion -c ${PORTABLE}
    -o ${compiler}.o)
endforeach()

# Writes NAME.c: portable.c with `from` replaced by `to`.
function(mutant name from to)
  file(READ ${PORTABLE} code)
  string(REPLACE "${from}" "${to}" wrong "${code}")
  if(wrong STREQUAL code)
    message(FATAL_ERROR "portable.c does not have: ${from}")
  endif()
  file(WRITE ${HERE}/${name}.c "${wrong}")
endfunction()

# No branch and no address depends on a secret byte or digit.
find_path(MEMCHECK valgrind/memcheck.h)
function(constant_time name source)
  if(NOT MEMCHECK)
    test(constant_time.${name} NEEDS valgrind/memcheck.h)
    return()
  endif()
  program(constant_time_${name} constant_time.c)
  target_compile_definitions(constant_time_${name} PRIVATE SOURCE="${source}")
  target_compile_options(constant_time_${name} PRIVATE -gdwarf-4)
  test(constant_time.${name} NEEDS valgrind COMMAND valgrind -q --expensive-definedness-checks=yes --error-exitcode=9
    $<TARGET_FILE:constant_time_${name}> PROPERTIES ${ARGN})
endfunction()
constant_time(portable ${PORTABLE})
set(MEMCHECK_ERROR PASS_REGULAR_EXPRESSION "depends on uninitialised|Use of uninitialised")
mutant(table "unsigned is_letter =" "return \"0123456789abcdef0123456789ABCDEF\"[value + 16 * upper];\n  unsigned is_letter =")
mutant(branch "unsigned decimal =" "if (byte <= '9') return byte - '0';\n  unsigned decimal =")
mutant(prefix "unsigned pair =" "if (first != '0') return false;\n  unsigned pair =")
foreach(name table branch prefix)
  constant_time(${name} ${HERE}/${name}.c ${MEMCHECK_ERROR})
endforeach()

# Frama-C proves each function, with pointers of 64 and of 32 bits, and not a mutant. It takes gcc's preprocessor.
if(NOT CMAKE_C_COMPILER_ID STREQUAL GNU)
  return()
endif()
function(proof name result source machine prover)
  list(JOIN ARGN " " options)
  test(proof.${name} NEEDS frama-c why3 ${prover} COMMAND bash -ec "export WHY3CONFIG=$PWD/proof.${name}.conf
    why3 config detect > proof.${name}.txt
    frama-c -machdep ${machine} -cpp-extra-args='-I${PROJECT_SOURCE_DIR}' -wp -wp-rte -warn-unsigned-overflow \
      -wp-model Typed+Cast -wp-prover ${prover} ${options} ${source} | grep -v ' : Valid' | tee proof.${name}.txt
    if grep -qE 'Proved goals: +([0-9]+) / \\1$' proof.${name}.txt; then echo 'All are proved.'
    elif grep -q 'Proved goals:' proof.${name}.txt; then echo 'Some are not proved.'; fi"
    PROPERTIES TIMEOUT 1800 PASS_REGULAR_EXPRESSION "${result} proved")
endfunction()
# z3 proves these functions at once, and CVC4 not at all; for the others z3 takes ten times as long.
set(BY_Z3 value,is_prefix,prefix_length)
# These functions take half of the time of CVC4. The others are proved in parallel.
set(SLOW prepend_escaped,const_hex_error_message,const_hex_encode,decode_pairs,decode_digits)
foreach(machine gcc_x86_64 gcc_x86_32)
  proof(${machine}.z3 "All are" ${PORTABLE} ${machine} z3 -wp-timeout 300 -wp-fct ${BY_Z3})
  proof(${machine}.slow "All are" ${PORTABLE} ${machine} cvc4 -wp-timeout 300 -wp-fct ${SLOW})
  proof(${machine}.rest "All are" ${PORTABLE} ${machine} cvc4 -wp-timeout 300 -wp-skip-fct ${SLOW},${BY_Z3})
endforeach()
function(unproved prover function from to)
  mutant(${function} "${from}" "${to}")
  proof(mutant_${function} "Some are not" ${HERE}/${function}.c gcc_x86_64 ${prover} -wp-fct ${function} -wp-timeout 3)
endfunction()
unproved(cvc4 digit "39 * is_letter" "38 * is_letter")
unproved(cvc4 value_of_byte "'f' + 1" "'g' + 1")
unproved(z3 is_prefix " || PUBLIC(pair == 256u * '0' + 'X')" "")
unproved(cvc4 fill "/ 16u" "% 16u")
unproved(cvc4 decode_pairs "high > 15 ? position : position + 1" "position")
unproved(cvc4 advance_past "digits % 2 != pending" "digits % 2 == 1")
unproved(cvc4 const_hex_decode_exact "text_length % 2 == 1" "text_length % 2 == 2")
unproved(cvc4 write_terminated "count < size - 1" "count < size")
