# For find_package(constriction): the target constriction::constriction is the shared object, and constriction::static the static library.
get_filename_component(_constriction_prefix "${CMAKE_CURRENT_LIST_DIR}/../../.." ABSOLUTE)
if(NOT TARGET constriction::constriction)
  add_library(constriction::constriction SHARED IMPORTED)
  set_target_properties(constriction::constriction PROPERTIES
    IMPORTED_LOCATION "${_constriction_prefix}/lib/libconstriction.so.0"
    IMPORTED_SONAME "libconstriction.so.0"
    INTERFACE_INCLUDE_DIRECTORIES "${_constriction_prefix}/include")
endif()
if(NOT TARGET constriction::static)
  add_library(constriction::static STATIC IMPORTED)
  set_target_properties(constriction::static PROPERTIES
    IMPORTED_LOCATION "${_constriction_prefix}/lib/libconstriction.a"
    INTERFACE_INCLUDE_DIRECTORIES "${_constriction_prefix}/include")
endif()
unset(_constriction_prefix)
