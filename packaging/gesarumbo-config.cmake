# find_package(gesarumbo) for CMake: the targets gesarumbo::gesarumbo (static) and, where there is one, gesarumbo::shared.
get_filename_component(_gesarumbo_prefix "${CMAKE_CURRENT_LIST_DIR}/../../.." ABSOLUTE)
if(NOT TARGET gesarumbo::gesarumbo)
  add_library(gesarumbo::gesarumbo STATIC IMPORTED)
  set_target_properties(gesarumbo::gesarumbo PROPERTIES
    IMPORTED_LOCATION "${_gesarumbo_prefix}/lib/libgesarumbo.a"
    IMPORTED_LINK_INTERFACE_LANGUAGES C
    INTERFACE_INCLUDE_DIRECTORIES "${_gesarumbo_prefix}/include")
  if(EXISTS "${_gesarumbo_prefix}/lib/libgesarumbo.so.@VERSION@")
    add_library(gesarumbo::shared SHARED IMPORTED)
    set_target_properties(gesarumbo::shared PROPERTIES
      IMPORTED_LOCATION "${_gesarumbo_prefix}/lib/libgesarumbo.so.@VERSION@"
      IMPORTED_SONAME libgesarumbo.so.@MAJOR@
      INTERFACE_INCLUDE_DIRECTORIES "${_gesarumbo_prefix}/include")
  endif()
endif()
unset(_gesarumbo_prefix)
