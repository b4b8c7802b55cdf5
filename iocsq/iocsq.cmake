# The programs that test a driver, as targets: csq::storm, csq::patient and csq::bounded, without the driver. They are
# compiled in the project, with its flags. csq_check is the script that runs the first two with 20 seeds, csq_scenarios
# are the scenarios of the third. An installation's find_package(csq) includes this file; so may a project of its own,
# for Linux or Windows (mingw's gcc, or clang for its headers), as iocsq/new writes it:
#
#   include(FOLDER/iocsq.cmake)
#   csq_add_driver(driver.c policy.c)
#
# What links one of them is compiled with -fsanitize=thread, without that sanitizer's library: so the test sees the
# driver's accesses to memory. With a sanitizer of the project's own that can't be. It is found in CMAKE_C_FLAGS and the
# like, and in options that were added before. A target that has it otherwise says so:
#
#   set_target_properties(storm PROPERTIES CSQ_SANITIZED ON)
set(csq_iocsq "${CMAKE_CURRENT_LIST_DIR}")
set(csq_check "${csq_iocsq}/check")
file(GLOB csq_scenarios "${csq_iocsq}/scenarios/*.txt")

# In the repository, or where it is installed.
set(csq_include "${csq_iocsq}/../include")
set(csq_plain "${csq_iocsq}/../bench/c")
set(csq_library)
if(EXISTS "${csq_iocsq}/installed")
  set(csq_include "${csq_iocsq}/../../../include/keuvatsi")
  set(csq_plain "${csq_iocsq}/plain")
  file(STRINGS "${csq_iocsq}/installed" csq_system REGEX "^system=${CMAKE_SYSTEM_NAME}$")
  if(csq_system)
    file(STRINGS "${csq_iocsq}/installed" csq_library REGEX "^library=")
    string(REPLACE "library=" "${csq_iocsq}/" csq_library "${csq_library}")
  endif()
endif()

# The queue that decides: an installed library, if the program is for the system that it is for, or the plain one.
function(csq_find_queue)
  if(TARGET csq::static)
    target_link_libraries(csq_iocsq PUBLIC csq::static)
  elseif(csq_library)
    target_link_libraries(csq_iocsq PUBLIC "${csq_library}")
  else()
    file(GLOB sources "${csq_plain}/plain_*.c")
    add_library(csq_plain STATIC EXCLUDE_FROM_ALL ${sources})
    target_include_directories(csq_plain PRIVATE "${csq_include}")
    set_target_properties(csq_plain PROPERTIES C_STANDARD 11 C_EXTENSIONS OFF)
    target_link_libraries(csq_iocsq PUBLIC csq_plain)
  endif()
endfunction()

# What a test may lack is defined in an archive, since Windows has no weak names; -u looks for it there.
function(csq_link_for_windows)
  file(GLOB sources "${csq_iocsq}/defaults/*.c")
  add_library(csq_defaults STATIC EXCLUDE_FROM_ALL ${sources})
  target_include_directories(csq_defaults PRIVATE "${csq_include}")
  target_link_libraries(csq_iocsq INTERFACE csq_defaults -static)
  foreach(name DriverPolicy DriverControls csq_build)
    target_link_libraries(csq_iocsq INTERFACE "-Wl,-u,${name}")
  endforeach()
endfunction()

# The driver's own flags: lines for the reports, tags as 'abcd', and what the head says of its accesses.
function(csq_add_flags)
  set(sees -fsanitize=thread "SHELL:--param tsan-distinguish-volatile=1")
  if(CMAKE_C_COMPILER_ID MATCHES "Clang")
    set(sees -fsanitize=thread "SHELL:-mllvm -tsan-distinguish-volatile=1")
    if(WIN32) # its driver has no such sanitizer there, but the compiler itself
      set(sees "SHELL:-Xclang -fsanitize=thread" "SHELL:-mllvm -tsan-distinguish-volatile=1")
    endif()
  endif()
  list(APPEND sees -Dmemcpy=__tsan_memcpy -Dmemmove=__tsan_memmove -Dmemset=__tsan_memset)
  get_directory_property(options COMPILE_OPTIONS)
  string(TOUPPER "${CMAKE_BUILD_TYPE}" type)
  if("${options} ${CMAKE_C_FLAGS} ${CMAKE_C_FLAGS_${type}} ${CMAKE_CXX_FLAGS} ${CMAKE_CXX_FLAGS_${type}}" MATCHES
      "-fsanitize")
    set(sees)
  endif()
  set(compiles "$<OR:$<COMPILE_LANGUAGE:C>,$<COMPILE_LANGUAGE:CXX>>")
  foreach(flag -g -Wno-multichar)
    target_compile_options(csq_iocsq INTERFACE "$<${compiles}:${flag}>")
  endforeach()
  foreach(flag ${sees})
    target_compile_options(csq_iocsq INTERFACE
      "$<$<AND:${compiles},$<NOT:$<BOOL:$<TARGET_PROPERTY:CSQ_SANITIZED>>>>:${flag}>")
  endforeach()
endfunction()

get_property(csq_languages GLOBAL PROPERTY ENABLED_LANGUAGES)
if("C" IN_LIST csq_languages AND NOT TARGET csq::iocsq)
  file(GLOB csq_sources "${csq_iocsq}/*.c")
  add_library(csq_iocsq STATIC EXCLUDE_FROM_ALL ${csq_sources})
  add_library(csq::iocsq ALIAS csq_iocsq)
  set_target_properties(csq_iocsq PROPERTIES C_STANDARD 11 C_EXTENSIONS OFF)
  foreach(csq_test storm patient bounded)
    add_library(csq_${csq_test} STATIC EXCLUDE_FROM_ALL "${csq_iocsq}/tests/${csq_test}.c")
    add_library(csq::${csq_test} ALIAS csq_${csq_test})
    target_include_directories(csq_${csq_test} PRIVATE "${csq_include}")
    target_link_libraries(csq_${csq_test} INTERFACE csq_iocsq)
    set_target_properties(csq_${csq_test} PROPERTIES C_STANDARD 11 C_EXTENSIONS OFF)
  endforeach()
  # The checker's own csq.h isn't the driver's, which is in wdk.
  target_include_directories(csq_iocsq PRIVATE "${csq_include}" "${csq_iocsq}"
    INTERFACE "${csq_include}/wdk" "${csq_include}")
  csq_find_queue()
  if(WIN32)
    csq_link_for_windows()
  else()
    set(THREADS_PREFER_PTHREAD_FLAG ON)
    find_package(Threads REQUIRED)
    target_link_libraries(csq_iocsq PUBLIC Threads::Threads)
  endif()
  csq_add_flags()
  # Memory of one run is taken from iocsq/arena.c.
  foreach(csq_call malloc calloc realloc free)
    target_link_libraries(csq_iocsq INTERFACE "-Wl,--wrap=${csq_call}")
  endforeach()
endif()

# csq_add_driver(SOURCE..): the programs with this driver, and their tests: `ordered`, if there is a test.c; the storm
# in turns with the seeds of CSQ_SEEDS (1 to 20) and freely, patient with each, and bounded for a minute. A patient test
# in which nothing was inserted is skipped.
set(CSQ_SEEDS 1 2 3 4 5 6 7 8 9 10 11 12 13 14 15 16 17 18 19 20 CACHE STRING "The seeds of the tests")
function(csq_add_driver)
  foreach(test storm patient bounded)
    add_executable(${test} ${ARGN})
    target_link_libraries(${test} csq::${test})
  endforeach()
  if(EXISTS "${CMAKE_CURRENT_SOURCE_DIR}/test.c")
    add_executable(ordered test.c ${ARGN})
    target_link_libraries(ordered csq::iocsq)
    add_test(NAME ordered COMMAND ordered)
  endif()
  foreach(seed ${CSQ_SEEDS})
    add_test(NAME "in turns, seed ${seed}" COMMAND storm 6 1000 ${seed} turns)
    add_test(NAME "patient, seed ${seed}" COMMAND patient 3 20 ${seed})
    set_tests_properties("patient, seed ${seed}" PROPERTIES SKIP_RETURN_CODE 71)
  endforeach()
  add_test(NAME freely COMMAND storm 6 1000 1)
  file(GLOB scenarios "${CMAKE_CURRENT_SOURCE_DIR}/scenarios/*.txt")
  add_test(NAME explore COMMAND bounded --seconds 60 3 ${scenarios} ${csq_scenarios})
endfunction()
unset(csq_call)
unset(csq_system)
unset(csq_test)
unset(csq_sources)
unset(csq_languages)
