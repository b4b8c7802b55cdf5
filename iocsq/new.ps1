# Makes a folder with a driver's skeleton, its policy, its test and what CMake builds them by, as iocsq/new does:
#
#   powershell -ExecutionPolicy Bypass -File iocsq\new.ps1 NAME    NAME is the folder to make; then, in it,
#
#   cmake --preset windows; cmake --build --preset windows; ctest --preset windows
param([Parameter(Mandatory)][string]$Folder)
$ErrorActionPreference = 'Stop'

$name = Split-Path -Leaf $Folder
if ($name -notmatch '^[A-Za-z][A-Za-z0-9_-]*$') {
    throw "iocsq\new.ps1: not a name: $name isn't a letter with letters, digits, _ and - after it"
}
if (Test-Path $Folder) { throw "iocsq\new.ps1: not new: $Folder is there already" }
$here = $PSScriptRoot.Replace('\', '/')
New-Item -ItemType Directory $Folder | Out-Null
foreach ($file in 'driver.c', 'test.c', 'policy.c', 'CMakeLists.txt', 'CMakePresets.json') {
    $text = [IO.File]::ReadAllText("$PSScriptRoot/skeleton/$file").Replace('@NAME@', $name).Replace('@IOCSQ@', $here)
    [IO.File]::WriteAllText("$((Resolve-Path $Folder).Path)/$file", $text)
}
Write-Output "driver.c, policy.c, test.c and CMakeLists.txt are in ${Folder}: there, cmake --preset windows"
