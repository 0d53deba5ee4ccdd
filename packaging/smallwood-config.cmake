# find_package(smallwood), then link with smallwood::smallwood. The paths are found from where this file stands.
if(NOT TARGET smallwood::smallwood)
  get_filename_component(_smallwood_prefix "${CMAKE_CURRENT_LIST_DIR}/../../.." ABSOLUTE)
  add_library(smallwood::smallwood STATIC IMPORTED)
  set_target_properties(smallwood::smallwood PROPERTIES
    IMPORTED_LOCATION "${_smallwood_prefix}/lib/libsmallwood.a"
    IMPORTED_LINK_INTERFACE_LANGUAGES C
    INTERFACE_INCLUDE_DIRECTORIES "${_smallwood_prefix}/include")
  unset(_smallwood_prefix)
endif()
