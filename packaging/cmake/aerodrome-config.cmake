# find_package(aerodrome) reads this file. It defines one function:
#
#   aerodrome_test(TARGET [BLOCKS PATTERN..] [SPLIT WHERE..] [STIR NUMBER] [MAY_CHECK_NOTHING])
#
# Each CTest test whose COMMAND begins with the name TARGET is then logged and judged, also the tests that gtest_discover_tests finds. (One
# that runs the program by a path, or by $<TARGET_FILE:TARGET>, isn't, since CMake doesn't know it then.) If a block in the log isn't
# atomic, the test fails, and prints the label of the block and its two places in the code. TARGET has to be compiled by aerodrome-cc or
# aerodrome-c++. BLOCKS, SPLIT and STIR are the logger's settings AERODROME_BLOCKS, AERODROME_SPLIT and AERODROME_STIR.
# A test that leaves no log, or begins no block, fails too, since nothing was checked. With MAY_CHECK_NOTHING it may begin no block.
# Call it before gtest_discover_tests, which notes how the tests are to be run.
get_filename_component(_aerodrome_prefix "${CMAKE_CURRENT_LIST_DIR}/../../.." ABSOLUTE)
set(aerodrome_RUN_TEST "${CMAKE_CURRENT_LIST_DIR}/run-test")
find_program(aerodrome_EXECUTABLE aerodrome HINTS "${_aerodrome_prefix}/bin" NO_DEFAULT_PATH)
find_program(aerodrome_EXECUTABLE aerodrome)
if(NOT aerodrome_EXECUTABLE OR NOT EXISTS "${aerodrome_RUN_TEST}")
    set(aerodrome_FOUND FALSE)
    set(aerodrome_NOT_FOUND_MESSAGE "no program aerodrome, or no ${aerodrome_RUN_TEST}")
endif()

function(aerodrome_test target)
    cmake_parse_arguments(PARSE_ARGV 1 asked "MAY_CHECK_NOTHING" "STIR" "BLOCKS;SPLIT")
    if(NOT TARGET "${target}")
        message(FATAL_ERROR "aerodrome_test: no target ${target}")
    endif()
    if(asked_UNPARSED_ARGUMENTS OR asked_KEYWORDS_MISSING_VALUES)
        message(FATAL_ERROR "aerodrome_test: not understood: ${asked_UNPARSED_ARGUMENTS} ${asked_KEYWORDS_MISSING_VALUES}")
    endif()
    get_property(is_discovered TARGET "${target}" PROPERTY CTEST_DISCOVERED_TEST_COUNTER SET)
    if(is_discovered)
        message(FATAL_ERROR "aerodrome_test: call it before gtest_discover_tests(${target}), whose tests would run without a log otherwise")
    endif()
    set(launcher "${aerodrome_RUN_TEST}" "--checker=${aerodrome_EXECUTABLE}")
    foreach(setting BLOCKS SPLIT STIR)
        if(DEFINED asked_${setting})
            # (a list of CMake has semicolons, and the logger's has commas)
            string(REPLACE ";" "," value "${asked_${setting}}")
            list(APPEND launcher "--set=AERODROME_${setting}=${value}")
        endif()
    endforeach()
    if(asked_MAY_CHECK_NOTHING)
        list(APPEND launcher "--may-check-nothing")
    endif()
    # The words that CTest writes before the program. (Tried with CMake 3.25, and not with later versions, in which the property has another name.)
    if(CMAKE_VERSION VERSION_LESS 3.29)
        set_property(TARGET "${target}" PROPERTY CROSSCOMPILING_EMULATOR "${launcher}")
    else()
        set_property(TARGET "${target}" PROPERTY TEST_LAUNCHER "${launcher}")
    endif()
endfunction()
