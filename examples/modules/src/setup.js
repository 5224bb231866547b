configure("language", 'en');
