# A version fits if it is not below the one that is asked for and belongs to its series: the same major and, as long as
# that is 0, the same minor.
set(PACKAGE_VERSION @VERSION@)
string(REGEX MATCH "^(0\\.[0-9]+|[0-9]+)" finialbasil_series "${PACKAGE_VERSION}")
set(finialbasil_asked "${PACKAGE_FIND_VERSION_MAJOR}")
if(finialbasil_asked STREQUAL "0")
  set(finialbasil_asked "0.${PACKAGE_FIND_VERSION_MINOR}")
endif()

set(PACKAGE_VERSION_COMPATIBLE FALSE)
if(finialbasil_asked STREQUAL finialbasil_series AND NOT PACKAGE_VERSION VERSION_LESS PACKAGE_FIND_VERSION)
  set(PACKAGE_VERSION_COMPATIBLE TRUE)
endif()
if(PACKAGE_VERSION VERSION_EQUAL PACKAGE_FIND_VERSION)
  set(PACKAGE_VERSION_EXACT TRUE)
endif()
