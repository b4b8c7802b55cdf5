# Runs a storm in turns with each seed, and then freely; and a patient test with each seed, as iocsq/check does. The
# output is TAP (version 13). The first run with a report ends it, and that report is on standard error. (For JUnit's
# XML there is ctest --output-junit.)
#
#   iocsq\check.ps1 STORM [-Patient PROGRAM] [-Seeds 1,2,3] [-Threads N] [-Turns N]
#
# It ends with status 0, or with that of the run that ended otherwise. A patient run in which nothing was inserted
# (status 71) hasn't failed if another inserted something.
param(
    [Parameter(Mandatory)][string]$Storm,
    [string]$Patient,
    [int[]]$Seeds = 1..20,
    [int]$Threads = 6,
    [int]$Turns = 1000
)

$runs = @()
foreach ($seed in $Seeds) {
    $runs += , @("in turns, seed $seed", $Storm, @($Threads, $Turns, $seed, 'turns'))
}
$runs += , @('freely', $Storm, @($Threads, $Turns, 1))
if ($Patient) {
    foreach ($seed in $Seeds) { $runs += , @("patient, seed $seed", $Patient, @(3, 20, $seed)) }
}

Write-Output 'TAP version 13' "1..$($runs.Count)"
$number = 0
$waited = $false
foreach ($run in $runs) {
    $number++
    $name, $program, $arguments = $run
    $said = & (Resolve-Path $program).Path @arguments
    $status = $LASTEXITCODE
    if ($program -eq $Patient) {
        if ($status -eq 0) { $waited = $true }
        if ($status -eq 71 -and ($waited -or $number -lt $runs.Count)) { $status = 0 }
    }
    if ($status -ne 0) {
        Write-Output "not ok $number - ${name}: $program $arguments ended with status $status"
        Write-Output "Bail out! Status $status"
        exit $status
    }
    Write-Output "ok $number - ${name}: $($said | Where-Object { $_ -like 'inserted *' } | Select-Object -First 1)"
}
exit 0
