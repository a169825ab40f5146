{ Hands each call an output or a list whose numbers have another size, at the lines marked: fpc refuses each of them, and
  none where RIGHT is defined. }
program wrong_size;

{$mode objfpc}

uses
  dilbreth;

type
{$ifdef RIGHT}
  TNumber = LongWord;
  TLength = SizeUInt;
  TLetter = Byte;
  TJob = dilbreth_job;
{$else}
  TNumber = Word;
  TLength = LongWord;
  TLetter = LongWord;
  TJob = dilbreth_job_answer;
{$endif}

var
  list: array[0..5] of LongWord;
  letter: Byte;
  number: LongWord;
  len: SizeUInt;
  other_list: array[0..5] of TNumber;
  other_letter: TLetter;
  other_number: TNumber;
  other_len: TLength;
  bytes: PByte;
  jobs: array[0..5] of dilbreth_job;
  other_jobs: array[0..5] of TJob;

begin
  bytes := PByte(@list);
  dilbreth_allocate(80, 0, 0, 0, 0, other_list, 0, list, 0, list, 0, list, 0, number, number); { refused }
  dilbreth_allocate(80, 0, 0, 0, 0, list, 0, other_list, 0, list, 0, list, 0, number, number); { refused }
  dilbreth_allocate(80, 0, 0, 0, 0, list, 0, list, 0, other_list, 0, list, 0, number, number); { refused }
  dilbreth_allocate(80, 0, 0, 0, 0, list, 0, list, 0, list, 0, other_list, 0, number, number); { refused }
  dilbreth_allocate(80, 0, 0, 0, 0, list, 0, list, 0, list, 0, list, 0, other_number, number); { refused }
  dilbreth_allocate(80, 0, 0, 0, 0, list, 0, list, 0, list, 0, list, 0, number, other_number); { refused }
  dilbreth_allocate_jobs(other_list, 0, list, 0, jobs, 0, list, 0); { refused }
  dilbreth_allocate_jobs(list, 0, other_list, 0, jobs, 0, list, 0); { refused }
  dilbreth_allocate_jobs(list, 0, list, 0, other_jobs, 0, list, 0); { refused }
  dilbreth_allocate_jobs(list, 0, list, 0, jobs, 0, other_list, 0); { refused }
  dilbreth_merge(other_list, 0, list, 0, list, 0, list, 0, list, 0, list, 0, len, number); { refused }
  dilbreth_merge(list, 0, other_list, 0, list, 0, list, 0, list, 0, list, 0, len, number); { refused }
  dilbreth_merge(list, 0, list, 0, other_list, 0, list, 0, list, 0, list, 0, len, number); { refused }
  dilbreth_merge(list, 0, list, 0, list, 0, other_list, 0, list, 0, list, 0, len, number); { refused }
  dilbreth_merge(list, 0, list, 0, list, 0, list, 0, other_list, 0, list, 0, len, number); { refused }
  dilbreth_merge(list, 0, list, 0, list, 0, list, 0, list, 0, other_list, 0, len, number); { refused }
  dilbreth_merge(list, 0, list, 0, list, 0, list, 0, list, 0, list, 0, other_len, number); { refused }
  dilbreth_merge(list, 0, list, 0, list, 0, list, 0, list, 0, list, 0, len, other_number); { refused }
  dilbreth_read(bytes, 0, other_letter, number, number, number, number, list, 0, list, 0, list, 0, len); { refused }
  dilbreth_read(bytes, 0, letter, other_number, number, number, number, list, 0, list, 0, list, 0, len); { refused }
  dilbreth_read(bytes, 0, letter, number, other_number, number, number, list, 0, list, 0, list, 0, len); { refused }
  dilbreth_read(bytes, 0, letter, number, number, other_number, number, list, 0, list, 0, list, 0, len); { refused }
  dilbreth_read(bytes, 0, letter, number, number, number, other_number, list, 0, list, 0, list, 0, len); { refused }
  dilbreth_read(bytes, 0, letter, number, number, number, number, other_list, 0, list, 0, list, 0, len); { refused }
  dilbreth_read(bytes, 0, letter, number, number, number, number, list, 0, other_list, 0, list, 0, len); { refused }
  dilbreth_read(bytes, 0, letter, number, number, number, number, list, 0, list, 0, other_list, 0, len); { refused }
  dilbreth_read(bytes, 0, letter, number, number, number, number, list, 0, list, 0, list, 0, other_len); { refused }
  dilbreth_write(80, 0, 0, 0, 0, other_list, 0, list, 0, list, 0, bytes, 0, len); { refused }
  dilbreth_write(80, 0, 0, 0, 0, list, 0, other_list, 0, list, 0, bytes, 0, len); { refused }
  dilbreth_write(80, 0, 0, 0, 0, list, 0, list, 0, other_list, 0, bytes, 0, len); { refused }
  dilbreth_write(80, 0, 0, 0, 0, list, 0, list, 0, list, 0, bytes, 0, other_len); { refused }
  dilbreth_change(bytes, 0, bytes, 0, other_len); { refused }
  dilbreth_respond(bytes, 0, bytes, 0, other_len); { refused }
  dilbreth_process_investor(0, 0, 0, 0, 0, 0, 0, 0, other_number, number, number); { refused }
  dilbreth_process_investor(0, 0, 0, 0, 0, 0, 0, 0, number, other_number, number); { refused }
  dilbreth_process_investor(0, 0, 0, 0, 0, 0, 0, 0, number, number, other_number); { refused }
  dilbreth_process_market_maker(0, 0, 0, 0, 0, other_number); { refused }
end.
