@echo off
rem The command as unpacked: it needs Python 3.10 or later, of 64 bits, as py or python on the path.
setlocal
set "LAUNCHER=python"
for %%P in (py.exe) do if not "%%~$PATH:P"=="" set "LAUNCHER=py -3"
%LAUNCHER% "%~dp0xaropinto" %*
exit /b %ERRORLEVEL%
