# The targets commonware::commonware, the shared library, and commonware::static, the archive.
get_filename_component(_commonware_prefix "${CMAKE_CURRENT_LIST_DIR}/../../.." ABSOLUTE)

if(NOT TARGET commonware::commonware)
    add_library(commonware::commonware SHARED IMPORTED)
    set_target_properties(commonware::commonware PROPERTIES
        IMPORTED_LOCATION "${_commonware_prefix}/lib/libcommonware.so.2"
        IMPORTED_SONAME "libcommonware.so.2"
        INTERFACE_INCLUDE_DIRECTORIES "${_commonware_prefix}/include")

    add_library(commonware::static STATIC IMPORTED)
    set_target_properties(commonware::static PROPERTIES
        IMPORTED_LOCATION "${_commonware_prefix}/lib/libcommonware.a"
        INTERFACE_INCLUDE_DIRECTORIES "${_commonware_prefix}/include")
endif()

unset(_commonware_prefix)
