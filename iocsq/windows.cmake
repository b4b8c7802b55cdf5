# For programs of Windows: on Windows the compiler of the PATH, elsewhere mingw-w64's gcc, whose programs run under
# wine.
if(NOT CMAKE_HOST_SYSTEM_NAME STREQUAL Windows)
  set(CMAKE_SYSTEM_NAME Windows)
  set(CMAKE_SYSTEM_PROCESSOR x86_64)
  set(CMAKE_C_COMPILER x86_64-w64-mingw32-gcc-posix)
  set(CMAKE_CXX_COMPILER x86_64-w64-mingw32-g++-posix)
  find_program(CSQ_WINE NAMES wine64 wine PATHS /usr/lib/wine)
  set(CMAKE_CROSSCOMPILING_EMULATOR "${CSQ_WINE}")
endif()
