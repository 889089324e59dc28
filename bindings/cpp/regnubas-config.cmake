# For find_package(regnubas): the targets regnubas::regnubas (shared) and regnubas::static.
get_property(_languages GLOBAL PROPERTY ENABLED_LANGUAGES)
get_filename_component(_regnubas "${CMAKE_CURRENT_LIST_DIR}/../../.." ABSOLUTE)
foreach(_part IN ITEMS "regnubas;SHARED;so" "static;STATIC;a")
  list(GET _part 0 _name)
  list(GET _part 1 _kind)
  list(GET _part 2 _ending)
  if(NOT TARGET regnubas::${_name})
    add_library(regnubas::${_name} ${_kind} IMPORTED)
    set_target_properties(regnubas::${_name} PROPERTIES
      IMPORTED_LOCATION "${_regnubas}/lib/libregnubas.${_ending}"
      INTERFACE_INCLUDE_DIRECTORIES "${_regnubas}/include")
    if("CXX" IN_LIST _languages)
      set_property(TARGET regnubas::${_name} PROPERTY INTERFACE_COMPILE_FEATURES cxx_std_17)
    endif()
  endif()
endforeach()
