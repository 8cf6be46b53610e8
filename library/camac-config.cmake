# find_package(camac) gives the targets camac::camac, the shared library, and camac::static, which is linked into a program.
get_filename_component(camac_prefix "${CMAKE_CURRENT_LIST_DIR}/../../.." ABSOLUTE)
set(camac_libraries "${camac_prefix}/lib")

if(NOT TARGET camac::camac)
  add_library(camac::camac SHARED IMPORTED)
  add_library(camac::static STATIC IMPORTED)
  set_target_properties(camac::camac PROPERTIES IMPORTED_LOCATION "${camac_libraries}/libcamac.so.0" IMPORTED_SONAME libcamac.so.0)
  set_target_properties(camac::static PROPERTIES IMPORTED_LOCATION "${camac_libraries}/libcamac.a")
  set_target_properties(camac::camac camac::static PROPERTIES INTERFACE_INCLUDE_DIRECTORIES "${camac_prefix}/include")
endif()
