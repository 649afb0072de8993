// A generic data table: iasl -G oem1.asl writes oem1.aml, of 114 bytes.
[0004]                Signature : "OEM1"
[0004]             Table Length : 00000000
[0001]                 Revision : 01
[0001]                 Checksum : 00
[0006]                   Oem ID : "OEMX00"
[0008]             Oem Table ID : "TABLE001"
[0004]             Oem Revision : 00000001
[0004]          Asl Compiler ID : "INTL"
[0004]    Asl Compiler Revision : 00000000

// How many records there are, and where the first stands
UINT16 : 0002
UINT16 : $FirstRecord

// A record: its length, its name, its identifier
Label  : FirstRecord
UINT16 : $SecondRecord - $FirstRecord
String : "Fan"
GUID   : 33221100-5544-7766-8899-AABBCCDDEEFF

Label  : SecondRecord
UINT16 : $End - $SecondRecord
String : "Light"
GUID   : "03020100-0504-0706-0809-0A0B0C0D0E0F"

Label   : End
Unicode : "Notes"
Buffer  : 01 02 03 04 05 06 07 08
UINT64  : 0123456789ABCDEF
