# The library jj_core_c: find_package(jj_core), then link with jj_core::jj_core or, without a shared library at run time, jj_core::static.
get_filename_component(jj_core_PREFIX "${CMAKE_CURRENT_LIST_DIR}/../../.." ABSOLUTE)
if(NOT TARGET jj_core::jj_core)
  add_library(jj_core::jj_core SHARED IMPORTED)
  set_target_properties(jj_core::jj_core PROPERTIES
    IMPORTED_LOCATION "${jj_core_PREFIX}/lib/libjj_core_c.so.@UPSTREAM@"
    INTERFACE_INCLUDE_DIRECTORIES "${jj_core_PREFIX}/include")
  add_library(jj_core::static STATIC IMPORTED)
  set_target_properties(jj_core::static PROPERTIES
    IMPORTED_LOCATION "${jj_core_PREFIX}/lib/libjj_core_c.a"
    INTERFACE_INCLUDE_DIRECTORIES "${jj_core_PREFIX}/include")
endif()
