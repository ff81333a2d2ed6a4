"""The pages of claims and the file of the words that they share, for reading.py and promises.py."""

WORDS = 'crates/claims/specs/Words.antt'
PAGES = ['crates/claims/specs/%s.antt' % name for name in ('Looks', 'Boundary', 'TraysToRecords', 'Batches', 'Claims', 'Box')]
PAGES += ['crates/records/specs/Records.antt', 'crates/gather/specs/Claims.antt']
# records of the pages that are no claims: what a claim supposes, or what it says at length
TERMS = {'BothGathered', 'NamedBack', 'RackAsked', 'FromImages'}
