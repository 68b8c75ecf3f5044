# find_package(xaropinto CONFIG REQUIRED) gives these targets:
#   xaropinto::xaropinto  the shared library; on Windows the DLL with its import library
#   xaropinto::static     the archive, where there is one: on Linux
get_filename_component(_xaropinto_top "${CMAKE_CURRENT_LIST_DIR}/../../.." ABSOLUTE)

if(NOT TARGET xaropinto::xaropinto)
  add_library(xaropinto::xaropinto SHARED IMPORTED)
  set_target_properties(xaropinto::xaropinto PROPERTIES
    INTERFACE_INCLUDE_DIRECTORIES "${_xaropinto_top}/include")
  if(EXISTS "${_xaropinto_top}/bin/xaropinto.dll")
    set_target_properties(xaropinto::xaropinto PROPERTIES
      IMPORTED_LOCATION "${_xaropinto_top}/bin/xaropinto.dll"
      IMPORTED_IMPLIB "${_xaropinto_top}/lib/xaropinto.lib")
  else()
    set_target_properties(xaropinto::xaropinto PROPERTIES
      IMPORTED_LOCATION "${_xaropinto_top}/lib/libxaropinto.so.2"
      IMPORTED_SONAME "libxaropinto.so.2")
  endif()
endif()

if(NOT TARGET xaropinto::static AND EXISTS "${_xaropinto_top}/lib/libxaropinto.a")
  add_library(xaropinto::static STATIC IMPORTED)
  set_target_properties(xaropinto::static PROPERTIES
    INTERFACE_INCLUDE_DIRECTORIES "${_xaropinto_top}/include"
    INTERFACE_COMPILE_DEFINITIONS XAROPINTO_STATIC
    IMPORTED_LOCATION "${_xaropinto_top}/lib/libxaropinto.a")
endif()

unset(_xaropinto_top)
