# The installed library: Tarnoklej::tarnoklej is the shared one, Tarnoklej::tarnoklej_static the archive.
get_filename_component(_tarnoklej_prefix "${CMAKE_CURRENT_LIST_DIR}/../../.." ABSOLUTE)

if(NOT TARGET Tarnoklej::tarnoklej_static)
  add_library(Tarnoklej::tarnoklej_static STATIC IMPORTED)
  set_target_properties(Tarnoklej::tarnoklej_static PROPERTIES
    IMPORTED_LOCATION "${_tarnoklej_prefix}/lib/libtarnoklej.a"
    INTERFACE_INCLUDE_DIRECTORIES "${_tarnoklej_prefix}/include")
endif()

if(NOT TARGET Tarnoklej::tarnoklej)
  add_library(Tarnoklej::tarnoklej SHARED IMPORTED)
  set_target_properties(Tarnoklej::tarnoklej PROPERTIES
    INTERFACE_INCLUDE_DIRECTORIES "${_tarnoklej_prefix}/include")
  include("${CMAKE_CURRENT_LIST_DIR}/TarnoklejShared.cmake")
endif()

# There are no components.
foreach(_tarnoklej_component IN LISTS Tarnoklej_FIND_COMPONENTS)
  if(Tarnoklej_FIND_REQUIRED_${_tarnoklej_component})
    set(Tarnoklej_FOUND FALSE)
    set(Tarnoklej_NOT_FOUND_MESSAGE "Tarnoklej has no component ${_tarnoklej_component}")
  endif()
endforeach()
unset(_tarnoklej_component)
unset(_tarnoklej_prefix)
