# find_package(finialbasil) gives the targets finialbasil::static and finialbasil::shared.
if(TARGET finialbasil::static)
  return()
endif()

# Links are followed before the prefix is taken from the path: where /lib is a link, the header is not beside it.
get_filename_component(finialbasil_prefix "${CMAKE_CURRENT_LIST_DIR}" REALPATH)
get_filename_component(finialbasil_prefix "${finialbasil_prefix}/../../.." ABSOLUTE)

add_library(finialbasil::static STATIC IMPORTED)
set_target_properties(finialbasil::static PROPERTIES
  IMPORTED_LOCATION "${finialbasil_prefix}/lib/libfinialbasil.a"
  INTERFACE_INCLUDE_DIRECTORIES "${finialbasil_prefix}/include")

add_library(finialbasil::shared SHARED IMPORTED)
set_target_properties(finialbasil::shared PROPERTIES
  IMPORTED_LOCATION "${finialbasil_prefix}/lib/libfinialbasil.so"
  INTERFACE_INCLUDE_DIRECTORIES "${finialbasil_prefix}/include")
